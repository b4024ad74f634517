//! Owned tables answer as the functions on lent slices do, over random cases.

mod common;

use cases::random::random_case;
use cases::{Ask, Given, Op, Run};
use common::signed;
use slettrein::{lent, Refusal, Room, Stopped};

/// Random cases that are compared.
const COUNT: u64 = 4_000;

/// Sizes, grammar and signing of a case, lent.
fn lend(given: &Given) -> (lent::Sizes, lent::Grammar<'_>, lent::Signing<'_>) {
    let cases::Sizes { terminals, symbols, rules, states } = given.sizes;
    let cases::Grammar { left, lens, rights } = &given.grammar;
    let cases::Signing { srule, sgoto } = &given.signing;
    let sizes = lent::Sizes { terminals, symbols, rules, states };
    (sizes, lent::Grammar { left, lens, rights }, lent::Signing { srule, sgoto })
}

/// The number, the reductions and the moves of the plain machine on lent slices.
fn expected(given: &Given, run: &Run) -> (u32, Vec<u32>, u64) {
    let (mut stack, mut list) = (run.stack.clone(), run.list.clone());
    let (sizes, grammar, signing) = lend(given);
    let (tokens, limit) = (&run.tokens[..], run.limit);
    let lent = lent::Run { tokens, limit, stack: &mut stack, list: &mut list };
    let (said, moves) = lent::plain(sizes, grammar, &given.table, signing, lent);
    let made = list.into_iter().take_while(|rule| said.number != 1 && *rule != 0).collect();
    (said.number, made, moves)
}

/// The number, the reductions and the moves of a parse.
fn found(done: Result<slettrein::Parse, Stopped>) -> (u32, Vec<u32>, u64) {
    let (number, parse) = match done {
        Ok(parse) => (0, parse),
        Err(stopped) => (stopped.refusal.number(), stopped.made),
    };
    (number, parse.reductions, parse.moves as u64)
}

/// Compares one case; says whether it came to a parse.
fn compared(seed: u64, given: &Given, run: &Run) -> bool {
    let (sizes, grammar, signing) = lend(given);
    let judged = lent::judge(sizes, grammar, &given.table, signing).number;
    let signed = signed(given);
    let number = signed.as_ref().err().map_or(0, Refusal::number);
    assert_eq!(number, judged, "seed {seed}");
    let Ok((table, signing)) = signed else { return false };
    let room = Room { stack: run.stack.len(), list: run.list.len(), moves: run.limit };
    let expected = expected(given, run);
    let plain = table.plain_parse_within(room, &signing, &run.tokens);
    assert_eq!(found(plain), expected, "seed {seed}, with the table");
    let cells = table.pack(&signing).expect("small tables can be packed");
    let packed = cells.parse_within(room, &run.tokens);
    assert_eq!(found(packed), expected, "seed {seed}, with cells");
    true
}

#[test]
fn owned_tables_answer_as_lent_ones() {
    let mut parsed = 0;
    for seed in 0..COUNT {
        let case = random_case(Op::Plain, seed, &|_, _| None);
        let Ask::Plain { given, run } = &case.ask else { panic!("a case of the plain machine") };
        parsed += u64::from(compared(seed, given, run));
    }
    assert!(parsed > COUNT / 2, "{parsed} cases parsed");
}
