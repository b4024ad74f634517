//! The table check: the table of a record language as large as the bounds allow.

use slettrein::lent;

use crate::lend::{to_product, to_second};
use crate::records::records;
use crate::timing::compare;

/// Compares the product's table check with the second program's.
pub fn run() {
    let given = records(78).expect("78 kinds are within the bounds");
    let (sizes, grammar, signing) = to_product(&given);
    let product = || lent::check(sizes, grammar, &given.table, signing).number;
    let lent::Sizes { states, symbols, .. } = sizes;
    let (sizes, grammar, signing) = to_second(&given);
    let other = || second::check(sizes, grammar, &given.table, signing).code;
    assert_eq!((product(), other()), (0, 0), "the table is sound");
    let name = format!("check, 78 kinds of records, L {states}, M {symbols}");
    compare(&name, 100, product, other);
}
