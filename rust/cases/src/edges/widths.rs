//! The number W of cells at its bounds and one past them.

use super::example::{blank_cells, least, least_cells, pack, parse, put_cell, run};
use super::Edges;
use crate::ask::{Ask, Cells};

/// All of these edges.
pub fn put(edges: &mut Edges) {
    put_packs(edges);
    put_parses(edges);
    put_reads(edges);
}

/// The least example takes 9 cells; 2 hold state 0 alone.
fn put_packs(edges: &mut Edges) {
    for (width, code) in [(0, 1), (1, 1), (2, 5), (3, 5), (8, 5), (65_537, 1), (100_000, 1)] {
        edges.put(format!("W-{width}"), pack(least(2, 4, 2, 2), width), code, &[]);
    }
    for width in [9, 10, 65_535, 65_536] {
        edges.put(format!("W-{width}"), pack(least(2, 4, 2, 2), width), 0, &[9]);
    }
}

/// In 2 cells state 0 has the action base 1 and finds nothing.
fn put_parses(edges: &mut Edges) {
    let given = least(2, 4, 2, 2);
    for width in [0, 1, 65_537] {
        let ask = parse(&given, blank_cells(4, width), run(0, 10, 4, 4));
        edges.put(format!("W-{width}"), ask, 1, &[]);
    }
    edges.put("W-2", parse(&given, blank_cells(4, 2), run(0, 10, 4, 4)), 8, &[0]);
    for width in [9, 65_536] {
        let ask = parse(&given, widened(width), run(0, 10, 4, 4));
        edges.put(format!("W-{width}"), ask, 0, &[2, 2]);
    }
}

/// A state needs its attached cell, and the last cell has none.
fn put_reads(edges: &mut Edges) {
    for width in [0, 1, 65_537] {
        edges.put(format!("W-{width}"), read(blank_cells(4, width), 0), 1, &[]);
    }
    edges.put("W-2", read(blank_cells(4, 2), 0), 0, &[4]);
    edges.put("W-2-at-1", read(blank_cells(4, 2), 1), 14, &[1]);
    edges.put("W-65536", read(widened(65_536), 0), 0, &[2, 2]);
    edges.put("W-65536-at-65534", read(widened(65_536), 65_534), 0, &[4]);
    edges.put("W-65536-at-65535", read(widened(65_536), 65_535), 14, &[65_535]);
    let mut last = blank_cells(4, 65_536);
    put_cell(&mut last, 0, 65_535, 4);
    put_cell(&mut last, 65_535, -2, 0);
    edges.put("W-65536-found-in-the-last", read(last, 0), 0, &[2, 2]);
}

/// The cells of the least example in an array of that length.
fn widened(width: usize) -> Cells {
    let mut cells = least_cells(2, 4, 2);
    cells.base.resize(width, 0);
    cells.check.resize(width, 4);
    cells
}

/// A read of the end mark.
fn read(cells: Cells, x: usize) -> Ask {
    Ask::Read { counts: least(2, 4, 2, 2).sizes.counts(), cells, x, a: 0 }
}
