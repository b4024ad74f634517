//! The random cases bring up every number of every operation often enough.

mod common;

use std::collections::BTreeMap;

use cases::{judge_cases, Op};
use common::base_seed;
use replay::{random_cases, Program, Second};

/// The numbers that an operation can answer.
fn numbers(op: Op) -> &'static [u32] {
    match op {
        Op::Pack => &[0, 1, 2, 3, 4, 5],
        Op::Read => &[0, 1, 14],
        Op::Parse => &[0, 1, 2, 7, 8, 9, 10, 11, 12, 13, 14],
        Op::Plain => &[0, 1, 2, 3, 4, 7, 8, 9, 10, 11, 12, 13],
        Op::Check => &[0, 1, 2, 3, 4, 6],
        Op::SheetRead => &[0, 1, 4, 15],
        Op::SheetWrite => &[0, 1, 4, 16],
        Op::PackSheet => &[0, 4, 15, 16],
    }
}

/// Makes sure that exactly these numbers come up, each at least so often.
fn covered(what: &str, found: &BTreeMap<u32, usize>, numbers: &[u32], least: usize) {
    println!("{what}: {found:?}");
    assert!(found.keys().eq(numbers), "{what}: {found:?}");
    assert!(found.values().all(|count| *count >= least), "{what}: {found:?}");
}

#[test]
fn every_number_of_every_operation_comes_up() {
    let seed = base_seed();
    for op in Op::ALL {
        let mut found = BTreeMap::new();
        for (_, case) in random_cases(op, seed, 3_000) {
            let code = Second.answer(&case.ask).code.expect("a number");
            *found.entry(code).or_insert(0) += 1;
        }
        covered(op.name(), &found, numbers(op), 20);
    }
}

#[test]
fn a_read_gives_every_kind_of_answer() {
    let mut found = BTreeMap::new();
    for (_, case) in random_cases(Op::Read, base_seed(), 2_000) {
        let answer = Second.answer(&case.ask);
        if answer.code == Some(0) {
            *found.entry(answer.values[0] as u32).or_insert(0) += 1;
        }
    }
    covered("kinds of a read", &found, &[0, 1, 2, 3, 4], 40);
}

#[test]
fn the_judgement_gives_every_number() {
    let mut found = BTreeMap::new();
    for (_, given) in judge_cases(base_seed(), 3_000) {
        let code = Second.judge(&given).code.expect("the second program judges");
        *found.entry(code).or_insert(0) += 1;
    }
    covered("the judgement", &found, &[0, 1, 2, 3, 4], 150);
}
