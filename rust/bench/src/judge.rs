//! The judgement at the bounds: L 1,024, M 512, a tenth of the entries written.

use cases::Sizes;
use slettrein::lent;

use crate::lend::{to_product, to_second};
use crate::table::{made, Plan};
use crate::timing::compare;

/// Compares the product's judgement with the second program's.
pub fn run() {
    let sizes = Sizes { terminals: 256, symbols: 512, rules: 1024, states: 1024 };
    let given = made(&Plan { sizes, written: 100, alike: 1 });
    let (sizes, grammar, signing) = to_product(&given);
    let product = || lent::judge(sizes, grammar, &given.table, signing).number;
    let (sizes, grammar, signing) = to_second(&given);
    let other = || second::judge(sizes, grammar, &given.table, signing).code;
    assert_eq!((product(), other()), (0, 0), "nothing is refused");
    compare("judge, L 1024, M 512", 100, product, other);
}
