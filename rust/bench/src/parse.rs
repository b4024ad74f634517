//! Parsing 60,000 tokens: the packed parser against an ordinary parser over the two-dimensional filled table.

use cases::{board, Given};
use slettrein::lent;

use crate::house::{house, VARIANT};
use crate::lend::to_product;
use crate::ordinary::Ordinary;
use crate::pack::Arrays;
use crate::records::{entry, records};
use crate::sentence::tokens;
use crate::timing::compare;

/// Tokens that are parsed.
const TOKENS: usize = 60_000;

/// The most moves that document 01 allows.
const LIMIT: usize = 1_000_000;

/// The small board's nonterminal of one entry, E.
const BOARD_ENTRY: u32 = 5;

/// Compares both on random entries; they must answer alike and make the same list.
fn parsed(name: &str, rounds: usize, given: &Given, entry: u32) {
    let Arrays { base, check, .. } = Arrays::packed(given);
    let (sizes, grammar, _) = to_product(given);
    let lent::Sizes { terminals, symbols, rules, states } = sizes;
    let counts = lent::Counts { terminals, symbols, rules };
    let (ordinary, tokens) = (Ordinary::new(given), tokens(given, entry, TOKENS));
    let (mut stack, mut list) = (vec![0; 256], vec![0; 4 * TOKENS]);
    let (mut other_stack, mut other_list) = (stack.clone(), list.clone());
    let mut product = |list: &mut [u32]| {
        let run = lent::Run { tokens: &tokens, limit: LIMIT, stack: &mut stack, list };
        let cells = lent::Cells { base: &base, check: &check };
        lent::parse(counts, grammar, cells, run).0
    };
    let mut other = |list: &mut [u32]| ordinary.parse(&tokens, LIMIT, &mut other_stack, list);
    let (said, also) = (product(&mut list), other(&mut other_list).expect("tokens of the grammar"));
    assert_eq!((said.number, said.values), (0, vec![also.0 as u64, also.1 as u64]), "{name}");
    assert!(list == other_list, "{name}: the same list");
    let name = format!(
        "parse, {name}, {states} states, {} cells, {} tokens, {} moves",
        base.len(),
        tokens.len(),
        also.1
    );
    compare(&name, rounds, || product(&mut list), || other(&mut other_list));
}

/// Compares the packed parser with the ordinary one.
pub fn run() {
    parsed("small board", 500, &board(), BOARD_ENTRY);
    parsed("house notation", 500, &house(), VARIANT);
    let records = records(24).expect("24 kinds are within the bounds");
    parsed("24 kinds of records", 500, &records, entry(&records));
}
