//! The house notation, as the benchmarks take a table.

use cases::{Given, Grammar, Signing, Sizes};
use slettrein::lent;

/// The number of the nonterminal of one variant.
pub const VARIANT: u32 = 20;

/// The house notation's grammar and table, unsigned.
pub fn house() -> Given {
    let sizes = Sizes { terminals: 18, symbols: 28, rules: 16, states: 35 };
    let mut grammar = Grammar { left: vec![0; 16], lens: vec![0; 16], rights: vec![0; 40] };
    let mut table = vec![0; sizes.states * sizes.symbols];
    let Grammar { left, lens, rights } = &mut grammar;
    assert_eq!(lent::house(left, lens, rights, &mut table).number, 0);
    let signing = Signing { srule: vec![0; 35], sgoto: vec![0; 10] };
    Given { sizes, grammar, table, signing }
}
