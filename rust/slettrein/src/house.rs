//! The house variant notation: its terminals, and its table.

use crate::{lent, Grammar, Table};

/// The terminals by number; the first is the end mark, which is never in a token list.
pub const TERMINALS: [&str; 18] = [
    "end", "VARIANT", "NAME", "PITS", "SEEDS", "SOW", "LAPS", "CAPTURE", "EQUALS", "NUMBER",
    "LEFT", "RIGHT", "SINGLE", "RELAY", "OPPOSITE", "EXACT", "NOTHING", "THEN",
];

/// How many symbols there are, how many rules, how many symbols on their right sides, and how many states.
const SYMBOLS: usize = 28;
const RULES: usize = 16;
const RIGHTS: usize = 40;
const STATES: usize = 35;

/// The token of a terminal's name, if there is such a terminal.
///
/// ```
/// assert_eq!(slettrein::house::token("CAPTURE"), Some(7));
/// assert_eq!(slettrein::house::token("end"), None);
/// ```
pub fn token(name: &str) -> Option<u32> {
    let place = TERMINALS.iter().position(|terminal| *terminal == name)?;
    (place > 0).then_some(place as u32)
}

/// The table of the notation, unsigned: the constant that is proved to pass the check.
///
/// ```
/// use slettrein::house;
///
/// let table = house::table();
/// table.check(&table.unsigned())?;
/// let cells = table.pack(&table.unsigned())?;
/// let names = "VARIANT NAME PITS EQUALS NUMBER SEEDS EQUALS NUMBER SOW EQUALS LEFT LAPS EQUALS RELAY";
/// let mut sheet: Vec<u32> = names.split(' ').filter_map(house::token).collect();
/// let stopped = cells.parse(&sheet).expect_err("the CAPTURE field is missing");
/// assert_eq!((stopped.refusal.number(), stopped.made.moves), (8, 17));
/// sheet.extend("CAPTURE EQUALS NOTHING".split(' ').filter_map(house::token));
/// assert!(cells.parse(&sheet).is_ok());
/// # Ok::<(), slettrein::Refusal>(())
/// ```
pub fn table() -> Table {
    let (mut left, mut lens, mut rights) = ([0; RULES], [0; RULES], [0; RIGHTS]);
    let mut entries = vec![0; STATES * SYMBOLS];
    let said = lent::house(&mut left, &mut lens, &mut rights, &mut entries);
    assert_eq!(said.number, 0, "the arrays are as long as the notation's");
    let mut grammar = Grammar::new(TERMINALS.len(), SYMBOLS);
    let mut rest = &rights[..];
    for (left, len) in left.iter().zip(lens) {
        let (right, after) = rest.split_at(len as usize);
        grammar = grammar.rule(*left as usize, right);
        rest = after;
    }
    Table::new(grammar, entries).expect("the notation's table is proved to be good")
}
