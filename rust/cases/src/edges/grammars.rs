//! Rules at the edge: lengths that do not add up, right sides of 64 and 65, and rules that are bad.

use super::example::{least, least_cells, pack, parse, plain, run};
use super::Edges;
use crate::ask::{Ask, Given};

/// All of these edges.
pub fn put(edges: &mut Edges) {
    put_sums(edges);
    put_long_rights(edges);
    put_bad_rules(edges);
    put_bad_with_others(edges);
}

/// An example of three rules, of which the last has two symbols and no use; T 3, M 6, L 2.
fn example() -> Given {
    let mut given = least(3, 6, 3, 2);
    given.grammar.set_right(3, &[1, 5]);
    given
}

/// The same answer from every operation that takes the grammar.
fn put_all(edges: &mut Edges, name: &str, given: Given, code: u32, values: &[u64]) {
    edges.put(name, Ask::Check { given: given.clone() }, code, values);
    edges.put(name, plain(given.clone(), run(0, 10, 4, 4)), code, values);
    edges.put(name, parse(&given, least_cells(3, 6, 3), run(0, 10, 4, 4)), code, values);
    edges.put(name, pack(given, 30), code, values);
}

/// Lengths that do not add up to the number of symbols, or only do so if the sum wraps.
fn put_sums(edges: &mut Edges) {
    let (half, most) = (1 << 31, u32::MAX);
    let lens = [
        ("sum-one-more", [1, 0, 3]),
        ("sum-one-less", [1, 0, 1]),
        ("sum-one-more-before", [1, 1, 2]),
        ("sum-none", [0, 0, 0]),
        ("sum-wraps-by-one", [2, most, 2]),
        ("sum-wraps-by-halves", [3, half, half]),
        ("sum-wraps-at-the-end", [1, 3, most]),
        ("sum-of-largest", [most, most, most]),
    ];
    for (name, lens) in lens {
        let mut given = example();
        given.grammar.lens = lens.to_vec();
        put_all(edges, name, given, 1, &[]);
    }
    let mut given = example();
    given.grammar.lens = vec![1, 2, 0];
    given.grammar.rights = vec![4, 1, 5];
    let ask = Ask::Check { given };
    edges.put("sum-right-but-rule-2-longer", ask, 6, &[0, 2]);
}

/// 64 symbols are good, 65 are SIZE, also where the rule is bad besides.
fn put_long_rights(edges: &mut Edges) {
    let mut given = example();
    given.grammar.set_right(3, &[1; 64]);
    let (accepted, cells) = ([2, 2], least_cells(3, 6, 3));
    edges.put("right-64", Ask::Check { given: given.clone() }, 0, &[]);
    edges.put("right-64", plain(given.clone(), run(0, 10, 4, 4)), 0, &accepted);
    edges.put("right-64", parse(&given, cells, run(0, 10, 4, 4)), 0, &accepted);
    edges.put("right-64", pack(given.clone(), 30), 0, &[11]);
    given.grammar.set_right(3, &[1; 65]);
    put_all(edges, "right-65", given.clone(), 1, &[]);
    given.grammar.left[0] = 0;
    put_all(edges, "right-65-and-rule-1-bad", given, 1, &[]);
    let mut given = least(256, 512, 1_024, 2);
    for rule in 2..=1_024 {
        given.grammar.set_right(rule, &[1; 64]);
    }
    edges.put("right-64-in-1023-rules", Ask::Check { given: given.clone() }, 6, &[0, 2]);
    edges.put("right-64-in-1023-rules", pack(given.clone(), 517), 0, &[517]);
    edges.put("right-64-in-1023-rules", plain(given, run(0, 10, 4, 4)), 9, &[0, 2]);
}

/// One bad rule of three: T is 3 and M is 6.
fn put_bad_rules(edges: &mut Edges) {
    for left in [0, 2, 4, 5, 6, u32::MAX] {
        put_left(edges, 1, left);
    }
    for left in [0, 1, 2, 3, 6, u32::MAX] {
        put_left(edges, 2, left);
        put_left(edges, 3, left);
    }
    let firsts: [&[u32]; 8] = [&[], &[4, 5], &[0], &[1], &[2], &[3], &[6], &[u32::MAX]];
    for right in firsts {
        put_right(edges, 1, right);
    }
    let others: [&[u32]; 6] = [&[0], &[3], &[6], &[u32::MAX], &[1, 2, 0], &[3, 1, 5]];
    for right in others {
        put_right(edges, 2, right);
        put_right(edges, 3, right);
    }
}

/// A rule with a bad left side.
fn put_left(edges: &mut Edges, rule: usize, left: u32) {
    let mut given = example();
    given.grammar.left[rule - 1] = left;
    put_all(edges, &format!("rule-{rule}-left-{left}"), given, 2, &[rule as u64]);
}

/// A rule with a bad right side.
fn put_right(edges: &mut Edges, rule: usize, right: &[u32]) {
    let mut given = example();
    given.grammar.set_right(rule, right);
    let words: Vec<String> = right.iter().map(|a| format!("-{a}")).collect();
    let name = format!("rule-{rule}-right{}", words.concat());
    put_all(edges, &name, given, 2, &[rule as u64]);
}

/// Of two bad rules the lower is named, and GRAMMAR comes before ENTRY and SIGN.
fn put_bad_with_others(edges: &mut Edges) {
    let mut given = example();
    given.grammar.left[1] = 3;
    given.grammar.left[2] = 3;
    put_all(edges, "rules-2-and-3-bad", given.clone(), 2, &[2]);
    given.table[0] = i32::MAX;
    given.signing.srule[0] = 1;
    put_all(edges, "rules-entry-and-signing-bad", given, 2, &[2]);
    let mut given = least(3, 6, 1_024, 2);
    given.grammar.left[1_023] = 3;
    edges.put("rule-1024-left-T", Ask::Check { given }, 2, &[1_024]);
}
