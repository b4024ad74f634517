//! Single reads of cells that hold numbers at the edge, the extremes of their type included.

use super::example::{blank_cells, put_cell};
use super::Edges;
use crate::ask::{Ask, Counts};

/// T 2, M 5, G 3: the terminals are 0 and 1, the nonterminals 2 to 4.
const COUNTS: Counts = Counts { terminals: 2, symbols: 5, rules: 3 };

/// The largest and the least number of a cell.
const MOST: i32 = i32::MAX;
const LEAST: i32 = i32::MIN;

/// A name, the cells that are not Base 0 and Check M, the symbol asked for, and what 01 answers.
type Reading = (&'static str, &'static [(usize, i32, i32)], usize, u32, &'static [u64]);

/// Reads of state 0 among 12 cells, in which a terminal is or is not found.
const TERMINALS: [Reading; 29] = [
    ("base-most", &[(0, MOST, 5)], 1, 0, &[4]),
    ("base-most-signed", &[(0, MOST, 5), (1, 0, -3)], 1, 0, &[2, 3]),
    ("base-least", &[(0, LEAST, 5)], 1, 14, &[0]),
    ("base-minus-one", &[(0, -1, 5), (1, 0, -3)], 1, 14, &[0]),
    ("signed-most", &[(0, 1, 5), (1, 0, MOST)], 1, 0, &[4]),
    ("signed-least", &[(0, 1, 5), (1, 0, LEAST)], 1, 14, &[0]),
    ("signed-rule-G", &[(0, 1, 5), (1, 0, -3)], 0, 0, &[2, 3]),
    ("signed-rule-past-G", &[(0, 1, 5), (1, 0, -4)], 1, 14, &[0]),
    ("signed-rule-1", &[(0, 1, 5), (1, 0, -1)], 1, 14, &[0]),
    ("signed-rule-1-at-end", &[(0, 1, 5), (1, 0, -1)], 0, 14, &[0]),
    ("found-most", &[(0, 2, 5), (4, MOST, 1)], 1, 0, &[0, 4]),
    ("found-least", &[(0, 2, 5), (4, LEAST, 1)], 1, 14, &[0]),
    ("found-nought", &[(0, 2, 5), (4, 0, 1)], 1, 0, &[0, 4]),
    ("found-rule-1", &[(0, 2, 5), (4, -1, 1)], 1, 14, &[0]),
    ("found-rule-2", &[(0, 2, 5), (4, -2, 1)], 1, 0, &[2, 2]),
    ("found-rule-G", &[(0, 2, 5), (4, -3, 1)], 1, 0, &[2, 3]),
    ("pointer-to-1", &[(0, 2, 5), (4, -4, 1)], 1, 0, &[1, 1]),
    ("pointer-to-last-state", &[(0, 2, 5), (4, -13, 1)], 1, 0, &[1, 10]),
    ("pointer-to-last-cell", &[(0, 2, 5), (4, -14, 1)], 1, 14, &[0]),
    ("pointer-past", &[(0, 2, 5), (4, -15, 1)], 1, 14, &[0]),
    ("pointer-to-negative", &[(0, 2, 5), (4, -9, 1), (6, -1, 5)], 1, 14, &[0]),
    ("pointer-to-most", &[(0, 2, 5), (4, -9, 1), (6, MOST, 5)], 1, 0, &[1, 6]),
    ("malformed-not-signed", &[(0, 2, 5), (1, 0, -2), (4, -1, 1)], 1, 14, &[0]),
    ("found-with-bad-signing", &[(0, 2, 5), (1, LEAST, LEAST), (4, 0, 1)], 1, 0, &[0, 4]),
    ("end-shift", &[(0, 2, 5), (2, 0, 0)], 0, 14, &[0]),
    ("end-pointer", &[(0, 2, 5), (2, -9, 0)], 0, 14, &[0]),
    ("end-accept", &[(0, 2, 5), (2, -1, 0)], 0, 0, &[3]),
    ("end-reduce", &[(0, 2, 5), (2, -3, 0)], 0, 0, &[2, 3]),
    ("found-in-last-cell", &[(0, 9, 5), (11, 0, 1)], 1, 14, &[0]),
];

/// Reads of state 0 among 12 cells for a nonterminal.
const NONTERMINALS: [Reading; 17] = [
    ("goto-base-most", &[(0, 1, 5), (1, MOST, 5)], 3, 0, &[4]),
    ("goto-base-most-signed", &[(0, 1, 5), (1, MOST, 5), (6, 0, 3)], 3, 0, &[0, 6]),
    ("goto-base-least-signed", &[(0, 1, 5), (1, LEAST, 5), (6, MOST, 3)], 3, 0, &[0, 6]),
    ("goto-base-nought-signed", &[(0, 1, 5), (1, 0, LEAST), (6, 0, 3)], 3, 0, &[0, 6]),
    ("goto-signed-negative", &[(0, 1, 5), (6, -1, 3)], 3, 14, &[0]),
    ("goto-signed-least", &[(0, 1, 5), (6, LEAST, 3)], 3, 14, &[0]),
    ("goto-signed-pointer", &[(0, 1, 5), (6, -8, 3)], 3, 14, &[0]),
    ("goto-signed-of-another", &[(0, 1, 5), (6, 0, 4)], 3, 0, &[4]),
    ("goto-found", &[(0, 1, 5), (1, 1, 5), (7, 5, 3)], 3, 0, &[0, 7]),
    ("goto-found-over-signed", &[(0, 1, 5), (1, 1, 5), (6, 0, 3), (7, 5, 3)], 3, 0, &[0, 7]),
    ("goto-pointer", &[(0, 1, 5), (1, 1, 5), (7, -8, 3)], 3, 0, &[1, 5]),
    ("goto-rule", &[(0, 1, 5), (1, 1, 5), (7, -2, 3)], 3, 14, &[0]),
    ("goto-rule-1", &[(0, 1, 5), (1, 1, 5), (7, -1, 3)], 3, 14, &[0]),
    ("goto-in-last-cell", &[(0, 1, 5), (1, 5, 5), (11, 0, 3)], 3, 14, &[0]),
    ("goto-base-negative", &[(0, -1, 5), (6, 0, 3)], 3, 14, &[0]),
    ("goto-start-symbol", &[(0, 1, 5), (4, 0, 2)], 2, 0, &[0, 4]),
    ("goto-last-symbol", &[(0, 1, 5), (8, 0, 4)], 4, 0, &[0, 8]),
];

/// All of these edges.
pub fn put(edges: &mut Edges) {
    for reading in TERMINALS.into_iter().chain(NONTERMINALS) {
        let (name, _, a, code, values) = reading;
        edges.put(name, ask(reading, 12, 0, a), code, values);
    }
    put_places(edges);
    put_base_nought(edges);
}

/// A read at x of a symbol.
fn ask(reading: Reading, width: usize, x: usize, a: usize) -> Ask {
    let mut cells = blank_cells(COUNTS.symbols, width);
    for &(at, base, check) in reading.1 {
        put_cell(&mut cells, at, base, check);
    }
    Ask::Read { counts: COUNTS, cells, x, a }
}

/// Cells and symbols at the end and past it; a bad symbol is SIZE also where the cell is bad.
fn put_places(edges: &mut Edges) {
    let blank: Reading = ("", &[], 0, 0, &[]);
    for x in [11, 12, 13, usize::MAX - 1, usize::MAX] {
        edges.put(format!("at-{x}"), ask(blank, 12, x, 1), 14, &[x as u64]);
        edges.put(format!("at-{x}-goto"), ask(blank, 12, x, 4), 14, &[x as u64]);
        edges.put(format!("at-{x}-symbol-M"), ask(blank, 12, x, 5), 1, &[]);
    }
    edges.put("at-10", ask(blank, 12, 10, 1), 0, &[4]);
    for a in [5, 6, 512, usize::MAX / 2 + 1, usize::MAX] {
        edges.put(format!("symbol-{a}"), ask(blank, 12, 0, a), 1, &[]);
    }
    let signed: Reading = ("", &[(6, 0, 3)], 3, 0, &[]);
    edges.put("goto-signed-without-attached", ask(signed, 7, 0, 3), 14, &[0]);
    edges.put("goto-signed-with-attached", ask(signed, 8, 0, 3), 0, &[0, 6]);
    edges.put("goto-signed-at-W", ask(blank, 6, 0, 3), 0, &[4]);
}

/// The action base 0 is read like any other; on the end mark it finds the state's own cell.
fn put_base_nought(edges: &mut Edges) {
    let shift: Reading = ("", &[(0, 0, 5), (2, 0, 1)], 1, 0, &[]);
    edges.put("base-nought", ask(shift, 12, 0, 1), 0, &[0, 2]);
    let own: Reading = ("", &[(0, 0, 0)], 0, 0, &[]);
    edges.put("base-nought-own-cell", ask(own, 12, 0, 0), 14, &[0]);
}
