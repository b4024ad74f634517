//! Every table of the vectors is refused or packed and checked as they say.

use std::fs;

use audit::{Asked, Packed, Report};
use cases::{read, Op};
use slettrein::{Refusal, Signed};

/// The number and the values of a refusal that judging, packing or the table check gives.
fn said(refusal: Refusal) -> (u32, Vec<u64>) {
    let values = match refusal {
        Refusal::Grammar { rule } => vec![rule],
        Refusal::Entry { index, .. } => vec![index],
        Refusal::Sign(Signed::State(state)) => vec![0, state],
        Refusal::Sign(Signed::Nonterminal(nonterminal)) => vec![1, nonterminal],
        Refusal::Unsound { state, rule } => vec![state, rule],
        _ => vec![],
    };
    (refusal.number(), values.into_iter().map(|value| value as u64).collect())
}

/// What the audit of a table answers to the operation that its case is of.
fn answer(op: Op, asked: &Asked) -> (u32, Vec<u64>) {
    let packed = match Packed::new(asked) {
        Ok(packed) => packed,
        Err(refusal) => return said(refusal),
    };
    let report = Report::new(&packed).expect("the cells are those of the table");
    match (op, report.check) {
        (Op::Pack, _) => (0, vec![packed.cells.base().len() as u64]),
        (_, Ok(())) => (0, vec![]),
        (_, Err(refusal)) => said(refusal),
    }
}

/// Compares the cases of pack or check of a file of vectors; gives the numbers that their answers have.
fn compared(name: &str) -> Vec<u32> {
    let path = format!("{}/../../vectors/{name}.txt", env!("CARGO_MANIFEST_DIR"));
    let text = fs::read_to_string(path).expect("a readable file");
    let mut numbers = Vec::new();
    for entry in read(text.as_bytes()).map(|entry| entry.expect("a well-formed case")) {
        let (op, expected) = (entry.case.ask.op(), entry.answer().expect("a well-formed answer"));
        let name = entry.case.name.clone();
        let Ok(asked) = Asked::case(entry.case) else { continue };
        let (number, values) = answer(op, &asked);
        assert_eq!((Some(number), values), (expected.code, expected.values), "{name}");
        numbers.push(number);
    }
    numbers
}

#[test]
fn tables_to_pack_are_answered_as_the_vectors_say() {
    let numbers = compared("pack");
    assert_eq!(numbers.len(), 220);
    assert!((0..=5).all(|number| numbers.contains(&number)));
}

#[test]
fn tables_to_check_are_answered_as_the_vectors_say() {
    let numbers = compared("check");
    assert!(numbers.len() > 100, "{}", numbers.len());
    assert!([0, 1, 2, 3, 4, 6].iter().all(|number| numbers.contains(number)));
}
