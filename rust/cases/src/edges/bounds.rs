//! T, M, G and L at their bounds and one past them, in every operation that takes them.

use super::example::{least, least_cells, least_count, pack, parse, plain, run};
use super::Edges;
use crate::ask::{Ask, Given, Sizes};
use crate::sheet::sheet_text;

/// Sizes within the bounds, each at one of them.
const WITHIN: [(&str, [usize; 4]); 8] = [
    ("least", [2, 4, 1, 2]),
    ("T-2-M-4-G-2-L-2", [2, 4, 2, 2]),
    ("T-256-M-258", [256, 258, 2, 2]),
    ("M-512", [2, 512, 2, 2]),
    ("G-1024", [2, 4, 1024, 2]),
    ("L-1024", [2, 4, 2, 1024]),
    ("T-256-L-1024", [256, 258, 2, 1024]),
    ("most", [256, 512, 1024, 1024]),
];

/// Sizes of which one is past its bound, with arrays of the lengths that they would ask for.
const PAST: [(&str, [usize; 4]); 12] = [
    ("T-0", [0, 2, 2, 2]),
    ("T-1", [1, 3, 2, 2]),
    ("T-257", [257, 259, 2, 2]),
    ("M-T", [2, 2, 2, 2]),
    ("M-T+1", [2, 3, 2, 2]),
    ("M-below-T", [3, 2, 2, 2]),
    ("M-513", [2, 513, 2, 2]),
    ("G-0", [2, 4, 0, 2]),
    ("G-1025", [2, 4, 1025, 2]),
    ("L-0", [2, 4, 2, 0]),
    ("L-1", [2, 4, 2, 1]),
    ("L-1025", [2, 4, 2, 1025]),
];

/// All of these edges.
pub fn put(edges: &mut Edges) {
    for (name, [t, m, g, l]) in WITHIN {
        put_within(edges, name, least(t, m, g, l));
    }
    for (name, [t, m, g, l]) in PAST {
        put_past(edges, name, least(t, m, g, l));
    }
    for k in 0..4 {
        let mut given = least(2, 4, 2, 2);
        let Sizes { terminals, symbols, rules, states } = &mut given.sizes;
        let size = [terminals, symbols, rules, states].into_iter().nth(k);
        size.into_iter().for_each(|size| *size = usize::MAX);
        put_past(edges, ["T-largest", "M-largest", "G-largest", "L-largest"][k], given);
    }
    let mut given = least(2, 4, 2, 2);
    given.sizes.terminals = usize::MAX - 1;
    given.sizes.symbols = usize::MAX;
    put_past(edges, "T-and-M-largest", given);
}

/// Sizes that every operation takes: the parses accept the empty list, or meet a blank if there is no rule 2.
fn put_within(edges: &mut Edges, name: &str, given: Given) {
    let Sizes { terminals, symbols, rules, .. } = given.sizes;
    let (code, values) = if rules > 1 { (0, vec![2, 2]) } else { (8, vec![0]) };
    let cells = least_cells(terminals, symbols, rules);
    let target = cells.base.len() as u64 - 2;
    let read =
        Ask::Read { counts: given.sizes.counts(), cells: cells.clone(), x: 0, a: terminals + 1 };
    edges.put(name, read, 0, &[0, target]);
    edges.put(name, parse(&given, cells, run(0, 10, 4, 4)), code, &values);
    let text = sheet_text(&given.sizes, &given.signing);
    let length = text.len() as u64;
    let buffer = vec![7; text.len()];
    edges.put(name, sheet_read(&given, text), 0, &[length]);
    edges.put(name, sheet_write(&given, buffer), 0, &[length]);
    edges.put(name, Ask::Check { given: given.clone() }, 0, &[]);
    edges.put(name, plain(given.clone(), run(0, 10, 4, 4)), code, &values);
    let count = least_count(&given);
    edges.put(format!("{name}-just-enough"), pack(given.clone(), count), 0, &[count as u64]);
    edges.put(format!("{name}-one-less"), pack(given, count - 1), 5, &[]);
}

/// Sizes that every operation which takes them refuses with SIZE.
fn put_past(edges: &mut Edges, name: &str, given: Given) {
    let text = sheet_text(&given.sizes, &given.signing);
    if !name.starts_with('L') {
        let cells = least_cells(2, 4, 2);
        let read = Ask::Read { counts: given.sizes.counts(), cells: cells.clone(), x: 0, a: 0 };
        edges.put(name, read, 1, &[]);
        edges.put(name, parse(&given, cells, run(0, 10, 4, 4)), 1, &[]);
    }
    edges.put(name, sheet_write(&given, vec![7; text.len()]), 1, &[]);
    edges.put(name, sheet_read(&given, text), 1, &[]);
    edges.put(name, Ask::Check { given: given.clone() }, 1, &[]);
    edges.put(name, plain(given.clone(), run(0, 10, 4, 4)), 1, &[]);
    edges.put(name, pack(given, 3_000), 1, &[]);
}

/// An asking to read this text into the example's signing.
fn sheet_read(given: &Given, text: Vec<u8>) -> Ask {
    Ask::SheetRead { sizes: given.sizes, signing: given.signing.clone(), text }
}

/// An asking to write the example's signing into this buffer.
fn sheet_write(given: &Given, buffer: Vec<u8>) -> Ask {
    Ask::SheetWrite { sizes: given.sizes, signing: given.signing.clone(), buffer }
}
