//! The packed parser against the plain machine, both the product's: the same answer, moves, stack and list.

mod common;

use cases::{Array, Ask, Cells, Counts, Given, Op};
use common::base_seed;
use replay::{random_cases, Product, Program};

/// Random cases of the plain machine that are parsed with cells too.
const COUNT: u64 = 5_000;

/// So many cells are enough for the tables of the random cases.
const WIDTH: usize = 16_384;

/// The cells that the product packs, or nothing where it refuses.
fn packed(given: &Given) -> Option<Cells> {
    let cells = Cells { base: vec![0; WIDTH], check: vec![0; WIDTH] };
    let place = vec![0; given.sizes.states];
    let ask = Ask::Pack { given: given.clone(), cells, marks: vec![0; WIDTH], place };
    let answer = Product.answer(&ask);
    if answer.code != Some(0) {
        return None;
    }
    let mut signed = answer.arrays.into_iter().filter_map(|(_, array)| match array {
        Array::Signed(numbers) => Some(numbers),
        _ => None,
    });
    Some(Cells { base: signed.next()?, check: signed.next()? })
}

#[test]
fn a_packed_parse_is_the_plain_machines() {
    let mut compared = 0;
    for (seed, case) in random_cases(Op::Plain, base_seed(), COUNT) {
        let Ask::Plain { given, run } = &case.ask else { panic!("a case of the plain machine") };
        if given.sizes.states > 1024 {
            continue;
        }
        let Some(cells) = packed(given) else { continue };
        let sizes = given.sizes;
        let counts =
            Counts { terminals: sizes.terminals, symbols: sizes.symbols, rules: sizes.rules };
        let (grammar, run) = (given.grammar.clone(), run.clone());
        let with_cells = Product.answer(&Ask::Parse { counts, grammar, cells, run });
        assert_eq!(with_cells, Product.answer(&case.ask), "seed {seed}");
        compared += 1;
    }
    assert!(compared > COUNT / 2, "{compared} cases compared");
}
