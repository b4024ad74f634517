//! A grammar and its signing as each of the two programs takes them.

use cases::{Given, Grammar, Signing, Sizes};
use slettrein::lent;

/// Sizes, grammar and signing as the product takes them.
pub fn to_product(given: &Given) -> (lent::Sizes, lent::Grammar<'_>, lent::Signing<'_>) {
    let Sizes { terminals, symbols, rules, states } = given.sizes;
    let Grammar { left, lens, rights } = &given.grammar;
    let Signing { srule, sgoto } = &given.signing;
    let sizes = lent::Sizes { terminals, symbols, rules, states };
    let grammar = lent::Grammar { left, lens, rights };
    (sizes, grammar, lent::Signing { srule, sgoto })
}

/// Sizes, grammar and signing as the second program takes them.
pub fn to_second(given: &Given) -> (second::Sizes, second::Grammar<'_>, second::Signing<'_>) {
    let Sizes { terminals, symbols, rules, states } = given.sizes;
    let Grammar { left, lens, rights } = &given.grammar;
    let Signing { srule, sgoto } = &given.signing;
    let sizes = second::Sizes { terminals, symbols, rules, states };
    let grammar = second::Grammar { left, lens, rights };
    (sizes, grammar, second::Signing { srule, sgoto })
}
