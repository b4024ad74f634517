//! Parses at the edge: the number of tokens, the limit, and the lengths of the stack and the list.

use super::example::{
    long, long_cells, parse, plain, put_cell, ring, ring_cells, row, row_cells, run,
};
use super::Edges;
use crate::ask::{Cells, Given, Run};

/// A name, what is run, and what 01 answers.
type Running = (&'static str, Run, u32, &'static [u64]);

/// A name, the cells that are changed, and what 01 answers.
type Strange = (&'static str, &'static [(usize, i32, i32)], u32, &'static [u64]);

/// All of these edges.
pub fn put(edges: &mut Edges) {
    put_tokens(edges);
    put_limits(edges);
    put_room(edges);
    put_ring(edges);
    put_longest_right(edges);
    put_bad_cells(edges);
}

/// The same answer from the cells of an example and from its plain table.
fn put_both(
    edges: &mut Edges,
    name: &str,
    of: (Given, Cells),
    run: Run,
    code: u32,
    values: &[u64],
) {
    edges.put(name, parse(&of.0, of.1, run.clone()), code, values);
    edges.put(name, plain(of.0, run), code, values);
}

/// The example that reads a row of tokens 1.
fn row_example() -> (Given, Cells) {
    (row(), row_cells())
}

/// 65,535 tokens are read, of which each takes two moves; 65,536 are SIZE.
fn put_tokens(edges: &mut Edges) {
    let all = run(65_535, 1_000_000, 3, 65_537);
    put_both(edges, "tokens-65535", row_example(), all, 0, &[65_537, 131_072]);
    let more = run(65_536, 1_000_000, 3, 65_538);
    put_both(edges, "tokens-65536", row_example(), more, 1, &[]);
    let short = run(65_535, 1_000_000, 3, 65_536);
    put_both(edges, "tokens-65535-list-one-short", row_example(), short, 12, &[65_535]);
    let soon = run(65_535, 131_071, 3, 65_537);
    put_both(edges, "tokens-65535-limit-one-short", row_example(), soon, 13, &[65_535]);
    let exact = run(65_535, 131_072, 3, 65_537);
    put_both(edges, "tokens-65535-limit-exact", row_example(), exact, 0, &[65_537, 131_072]);
    for token in [0, 2, 3, 65_536, u32::MAX] {
        for before in [0, 1, 2] {
            let mut strange = run(before, 100, 3, 9);
            strange.tokens.push(token);
            let name = format!("token-{token}-at-{before}");
            put_both(edges, &name, row_example(), strange, 7, &[before as u64]);
        }
    }
}

/// The limit's bound, and limits around the 6 moves that two tokens take.
fn put_limits(edges: &mut Edges) {
    for limit in [6, 7, 999_999, 1_000_000] {
        let name = format!("limit-{limit}");
        put_both(edges, &name, row_example(), run(2, limit, 3, 4), 0, &[4, 6]);
    }
    for limit in [1_000_001, usize::MAX] {
        put_both(edges, &format!("limit-{limit}"), row_example(), run(2, limit, 3, 4), 1, &[]);
    }
    for (limit, index) in [(0, 0), (1, 0), (2, 1), (3, 1), (4, 2), (5, 2)] {
        let name = format!("limit-{limit}");
        put_both(edges, &name, row_example(), run(2, limit, 3, 4), 13, &[index]);
    }
}

/// Stacks and lists around what two tokens take, and which refusal comes first.
fn put_room(edges: &mut Edges) {
    let rooms: [Running; 9] = [
        ("stack-0", run(2, 100, 0, 4), 11, &[0]),
        ("stack-0-limit-0", run(2, 0, 0, 0), 11, &[0]),
        ("stack-1", run(2, 100, 1, 4), 11, &[0]),
        ("stack-2", run(2, 100, 2, 4), 11, &[0]),
        ("stack-3", run(2, 100, 3, 4), 0, &[4, 6]),
        ("list-0", run(2, 100, 3, 0), 12, &[0]),
        ("list-0-stack-1", run(2, 100, 1, 0), 12, &[0]),
        ("list-3", run(2, 100, 3, 3), 12, &[2]),
        ("stack-2-no-tokens", run(0, 2, 2, 2), 0, &[2, 2]),
    ];
    for (name, run, code, values) in rooms {
        put_both(edges, name, row_example(), run, code, values);
    }
    let mut strange = run(0, 0, 3, 4);
    strange.tokens = vec![0];
    put_both(edges, "limit-before-token", row_example(), strange.clone(), 13, &[0]);
    strange.stack.clear();
    put_both(edges, "stack-before-all", row_example(), strange, 11, &[0]);
}

/// A parse that never ends meets the limit, or the end of its list if that comes first.
fn put_ring(edges: &mut Edges) {
    let example = || (ring(), ring_cells());
    put_both(edges, "ring-limit", example(), run(0, 1_000_000, 2, 1_000_000), 13, &[0]);
    put_both(edges, "ring-list", example(), run(0, 1_000_000, 2, 999_999), 12, &[0]);
    put_both(edges, "ring-limit-10", example(), run(0, 10, 2, 11), 13, &[0]);
}

/// A right side of 64 symbols takes exactly 64 tokens.
fn put_longest_right(edges: &mut Edges) {
    let runs: [Running; 6] = [
        ("right-64-exact", run(64, 66, 65, 2), 0, &[2, 66]),
        ("right-64-stack-64", run(64, 66, 64, 2), 11, &[63]),
        ("right-64-tokens-63", run(63, 100, 65, 2), 9, &[63, 2]),
        ("right-64-tokens-63-list-0", run(63, 100, 65, 0), 12, &[63]),
        ("right-64-tokens-65", run(65, 100, 70, 2), 10, &[65, 2]),
        ("right-64-no-token", run(0, 100, 65, 2), 8, &[0]),
    ];
    for (name, run, code, values) in runs {
        put_both(edges, name, (long(), long_cells()), run, code, values);
    }
    let mut bad = long_cells();
    put_cell(&mut bad, 7, -1, 3);
    edges.put("uncovered-state-is-named", parse(&long(), bad, run(64, 66, 65, 2)), 14, &[0]);
}

/// Cells of the row with one strange number: state 0 is at 0 and state 1 at 7.
fn put_bad_cells(edges: &mut Edges) {
    const LEAST: i32 = i32::MIN;
    const MOST: i32 = i32::MAX;
    let strange: [Strange; 7] = [
        ("base-of-0-least", &[(0, LEAST, 4)], 14, &[0]),
        ("base-of-0-most", &[(0, MOST, 4)], 8, &[0]),
        ("base-of-1-least", &[(7, LEAST, 3)], 14, &[0]),
        ("base-of-1-most", &[(7, MOST, 3)], 8, &[0]),
        ("rule-1-by-signing", &[(7, MOST, 3), (8, 0, -1)], 14, &[7]),
        ("rule-past-G-by-signing", &[(7, MOST, 3), (8, 0, LEAST)], 14, &[7]),
        ("rule-2-by-signing", &[(7, MOST, 3), (8, 0, -2)], 10, &[0, 2]),
    ];
    for (name, changes, code, values) in strange {
        let mut cells = row_cells();
        for &(at, base, check) in changes {
            put_cell(&mut cells, at, base, check);
        }
        edges.put(name, parse(&row(), cells, run(0, 100, 5, 5)), code, values);
    }
}
