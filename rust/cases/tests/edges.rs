//! The edge cases have names of their own, keep to the text form, and touch every bound.

use std::collections::HashSet;

use cases::edges::{edges, Edge};
use cases::{read, write, Ask, Op};

/// Whether a case is short enough to be written out in a test.
fn is_short(edge: &Edge) -> bool {
    let length = match &edge.0.ask {
        Ask::Pack { given, cells, .. } => given.table.len() + cells.base.len(),
        Ask::Plain { given, run } => given.table.len() + run.list.len(),
        Ask::Parse { cells, run, .. } => cells.base.len() + run.list.len(),
        Ask::Check { given } => given.table.len(),
        _ => 0,
    };
    length < 10_000
}

#[test]
fn names_are_all_different() {
    let edges = edges();
    let names: HashSet<&str> = edges.iter().map(|edge| edge.0.name.as_str()).collect();
    assert_eq!(names.len(), edges.len());
}

#[test]
fn every_case_is_read_as_it_was_written() {
    for (case, ..) in edges().iter().filter(|edge| is_short(edge)) {
        let text = write(case, None);
        let mut entries = read(text.as_bytes());
        let entry = entries.next().expect("a case").expect("a well-formed case");
        assert!(entry.case == *case, "{} differs", case.name);
        assert!(entries.next().is_none() && entry.expected.is_empty());
    }
}

#[test]
fn every_number_that_an_operation_has_is_there() {
    let edges = edges();
    let numbers = |op: Op| -> HashSet<u32> {
        edges.iter().filter(|edge| edge.0.ask.op() == op).map(|edge| edge.1).collect()
    };
    assert_eq!(numbers(Op::Pack), HashSet::from([0, 1, 2, 3, 4, 5]));
    assert_eq!(numbers(Op::Read), HashSet::from([0, 1, 14]));
    assert_eq!(numbers(Op::Parse), HashSet::from([0, 1, 2, 7, 8, 9, 10, 11, 12, 13, 14]));
    assert_eq!(numbers(Op::Plain), HashSet::from([0, 1, 2, 3, 4, 7, 8, 9, 10, 11, 12, 13]));
    assert_eq!(numbers(Op::Check), HashSet::from([0, 1, 2, 3, 4, 6]));
    assert_eq!(numbers(Op::SheetRead), HashSet::from([0, 1, 4, 15]));
    assert_eq!(numbers(Op::SheetWrite), HashSet::from([0, 1, 4, 16]));
}
