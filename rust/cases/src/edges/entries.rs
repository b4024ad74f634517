//! Entries and signings at the edge, the extremes of their types included.

use super::example::{least, pack, plain, run};
use super::Edges;
use crate::ask::{Ask, Given};

/// T 3, M 6, G 2, L 3: columns 0 to 2 are terminals, 3 is the start symbol, 4 and 5 nonterminals.
fn example() -> Given {
    least(3, 6, 2, 3)
}

/// All of these edges.
pub fn put(edges: &mut Edges) {
    put_bad_entries(edges);
    put_good_entries(edges);
    put_bad_signings(edges);
    put_good_signings(edges);
    put_several(edges);
}

/// The same refusal from every operation that takes the table.
fn put_all(edges: &mut Edges, name: &str, given: Given, code: u32, values: &[u64]) {
    edges.put(name, Ask::Check { given: given.clone() }, code, values);
    edges.put(name, plain(given.clone(), run(0, 10, 4, 4)), code, values);
    edges.put(name, pack(given, 40), code, values);
}

/// Entries that are bad for their column, in the first and the last row.
fn put_bad_entries(edges: &mut Edges) {
    let columns: [(usize, &[i32]); 5] = [
        (0, &[1, 2, 3, -3, i32::MIN, i32::MAX, i32::MIN + 1]),
        (1, &[3, -1, -3, i32::MIN, i32::MAX, -65_536, 65_536]),
        (2, &[3, -1, -3, i32::MIN, i32::MAX]),
        (3, &[1, 2, -1, -2, i32::MIN, i32::MAX]),
        (5, &[3, -1, -2, -3, i32::MIN, i32::MAX]),
    ];
    for (column, entries) in columns {
        for entry in entries {
            for at in [column, 12 + column] {
                let mut given = example();
                given.table[at] = *entry;
                put_all(edges, &format!("entry-{at}-is{entry:+}"), given, 3, &[at as u64]);
            }
        }
    }
    let mut given = least(256, 512, 2, 1_024);
    given.table[1_024 * 512 - 1] = 1_024;
    edges.put("last-entry-is-L", Ask::Check { given }, 3, &[524_287]);
}

/// Entries at the edge that are good, in state 2, which no path reaches.
fn put_good_entries(edges: &mut Edges) {
    for (at, entry) in [(12, -1), (12, -2), (13, 2), (13, 1), (14, -2), (16, 2), (17, 1)] {
        let mut given = example();
        given.table[at] = entry;
        edges.put(format!("entry-{at}-is{entry:+}"), Ask::Check { given: given.clone() }, 0, &[]);
        edges.put(format!("entry-{at}-is{entry:+}"), plain(given, run(0, 10, 4, 4)), 0, &[2, 2]);
    }
}

/// Signed rules must be 2 to G, and signed states 1 to L-1 and all different; that of T is 0.
fn put_bad_signings(edges: &mut Edges) {
    for rule in [1, 3, 65_535, u32::MAX] {
        for state in [0, 2] {
            let mut given = example();
            given.signing.srule[state] = rule;
            put_all(edges, &format!("state-{state}-signs-{rule}"), given, 4, &[0, state as u64]);
        }
    }
    let gotos: [([u32; 3], u64); 9] = [
        ([1, 0, 0], 3),
        ([u32::MAX, 0, 0], 3),
        ([0, 3, 0], 4),
        ([0, u32::MAX, 0], 4),
        ([0, 0, 3], 5),
        ([0, 0, u32::MAX], 5),
        ([0, 2, 2], 5),
        ([1, 1, 1], 3),
        ([0, 3, 3], 4),
    ];
    for (sgoto, bad) in gotos {
        let mut given = example();
        given.signing.sgoto = sgoto.to_vec();
        let name = format!("gotos-{}-{}-{}", sgoto[0], sgoto[1], sgoto[2]);
        put_all(edges, &name, given, 4, &[1, bad]);
    }
}

/// The highest rule and the highest state may be signed; neither is used on the way to accepting.
fn put_good_signings(edges: &mut Edges) {
    let mut given = example();
    given.signing.srule[2] = 2;
    given.signing.sgoto = vec![0, 1, 2];
    edges.put("signs-highest", Ask::Check { given: given.clone() }, 0, &[]);
    edges.put("signs-highest", plain(given, run(0, 10, 4, 4)), 0, &[2, 2]);
}

/// Of several faults the lowest number is said, and of one number the lowest place.
fn put_several(edges: &mut Edges) {
    let mut given = example();
    given.signing.sgoto = vec![0, 2, 2];
    given.signing.srule[2] = 1;
    put_all(edges, "state-before-nonterminal", given.clone(), 4, &[0, 2]);
    given.signing.srule[1] = 3;
    put_all(edges, "lower-state-first", given.clone(), 4, &[0, 1]);
    given.table[17] = -1;
    put_all(edges, "entry-before-signing", given.clone(), 3, &[17]);
    given.table[9] = i32::MIN;
    put_all(edges, "lower-entry-first", given.clone(), 3, &[9]);
    given.signing.srule.pop();
    put_all(edges, "size-before-entry", given, 1, &[]);
    let mut given = least(3, 7, 2, 3);
    given.signing.sgoto = vec![0, 2, 2, 99];
    put_all(edges, "equal-before-out-of-range", given, 4, &[1, 5]);
}
