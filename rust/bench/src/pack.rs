//! Packing: a table of 378 states and 150 symbols as C grammars have, tables at the bounds, and that of a record language.

use cases::{Given, Sizes};
use slettrein::lent;

use crate::lend::{to_product, to_second};
use crate::records::records;
use crate::table::{made, Plan};
use crate::timing::compare;

/// The most cells that document 01 allows.
const MOST_CELLS: usize = 65_536;

/// The four arrays that packing fills.
pub struct Arrays {
    pub base: Vec<i32>,
    pub check: Vec<i32>,
    marks: Vec<u32>,
    place: Vec<u32>,
}

impl Arrays {
    /// Arrays for so many cells and states.
    fn new(width: usize, states: usize) -> Arrays {
        Arrays {
            base: vec![0; width],
            check: vec![0; width],
            marks: vec![0; width],
            place: vec![0; states],
        }
    }

    /// What the product packs, in as many cells as it takes.
    pub fn packed(given: &Given) -> Arrays {
        let states = given.sizes.states;
        let (number, values) = product(given, &mut Arrays::new(MOST_CELLS, states));
        assert_eq!((number, values.len()), (0, 1), "the table can be packed");
        let mut arrays = Arrays::new(values[0] as usize, states);
        assert_eq!(product(given, &mut arrays), (0, values), "as many cells are enough");
        arrays
    }
}

/// Packs by the product.
fn product(given: &Given, arrays: &mut Arrays) -> (u32, Vec<u64>) {
    let Arrays { base, check, marks, place } = arrays;
    let (sizes, grammar, signing) = to_product(given);
    let cells = lent::CellsMut { base, check, marks };
    let said = lent::pack(sizes, grammar, &given.table, signing, cells, place);
    (said.number, said.values)
}

/// Packs by the second program.
fn other(given: &Given, arrays: &mut Arrays) -> (u32, Vec<u64>) {
    let Arrays { base, check, marks, place } = arrays;
    let (sizes, grammar, signing) = to_second(given);
    let said = second::pack(sizes, grammar, &given.table, signing, base, check, marks, place);
    (said.code, said.values)
}

/// Compares both on one table, which they must pack alike.
fn packed(name: &str, width: usize, rounds: usize, given: &Given) {
    let states = given.sizes.states;
    let (mut ours, mut theirs) = (Arrays::new(width, states), Arrays::new(width, states));
    let (said, also) = (product(given, &mut ours), other(given, &mut theirs));
    assert_eq!(said, also, "{name}");
    assert!(ours.base == theirs.base && ours.check == theirs.check, "{name}: the same cells");
    let symbols = given.sizes.symbols;
    let name = match said.1[..] {
        [cells] => format!("pack, {name}, L {states}, M {symbols}, {cells} cells"),
        _ => format!("pack, {name}, L {states}, M {symbols}, refused with {}", said.0),
    };
    compare(&name, rounds, || product(given, &mut ours), || other(given, &mut theirs));
}

/// Compares the product's packing with the second program's.
pub fn run() {
    let c = Sizes { terminals: 90, symbols: 150, rules: 220, states: 378 };
    let most = Sizes { terminals: 256, symbols: 512, rules: 1024, states: 1024 };
    let planned = |sizes, written, alike| made(&Plan { sizes, written, alike });
    packed("a tenth written", 16_384, 200, &planned(c, 100, 3));
    packed("a twentieth written", MOST_CELLS, 5, &planned(most, 50, 1));
    packed("a tenth written", MOST_CELLS, 5, &planned(most, 100, 16));
    let records = records(78).expect("78 kinds are within the bounds");
    packed("78 kinds of records", MOST_CELLS, 200, &records);
}
