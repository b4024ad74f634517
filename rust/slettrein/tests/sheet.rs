//! Signing sheets: the small board's is document 01's, and every signing comes back from its sheet.

mod common;

use cases::random::random_case;
use cases::{board, Ask, Op};
use common::signed;
use slettrein::{Grammar, Refusal, Signed, Table};

/// The sheet of the small board.
const BOARD: &str = "sheet=1\nterminals=3\nsymbols=6\nrules=5\nstates=7\n\
                     state.0=none\nstate.1=none\nstate.2=3\nstate.3=4\nstate.4=none\n\
                     state.5=2\nstate.6=5\ngoto.4=1\ngoto.5=5\n";

/// Random cases of which the signing is written and read.
const COUNT: u64 = 2_000;

/// A table at the bounds of document 01, all blank.
fn largest() -> Table {
    let start = Grammar::new(2, 512).rule(2, &[3]);
    let grammar = (2..=1_024).fold(start, |grammar, _| grammar.rule(3, &[]));
    Table::new(grammar, vec![0; 1_024 * 512]).expect("a good table")
}

#[test]
fn the_small_boards_sheet_is_that_of_document_01() {
    let (table, signing) = signed(&board()).expect("the small board is good");
    assert_eq!(table.write_sheet(&signing), Ok(BOARD.to_string()));
    assert_eq!(table.read_sheet(BOARD.as_bytes()), Ok(signing));
}

#[test]
fn signings_come_back_from_their_sheets() {
    let mut written = 0;
    for seed in 0..COUNT {
        let case = random_case(Op::Check, seed, &|_, _| None);
        let Ask::Check { given } = case.ask else { panic!("a case of the table check") };
        let Ok((table, signing)) = signed(&given) else { continue };
        let sheet = table.write_sheet(&signing).expect("a good signing has a sheet");
        assert_eq!(table.read_sheet(sheet.as_bytes()), Ok(signing), "seed {seed}");
        written += 1;
    }
    assert!(written > COUNT / 2, "{written} signings");
}

#[test]
fn the_longest_sheet_can_be_written() {
    let table = largest();
    let gotos = (0..510).map(|n| if n == 0 { 0 } else { 1_024 - n }).collect();
    let signing = table.sign(vec![1_024; 1_024], gotos).expect("a good signing");
    let sheet = table.write_sheet(&signing).expect("there is room for it");
    assert_eq!(sheet.lines().count(), 5 + 1_024 + 509);
    assert_eq!(table.read_sheet(sheet.as_bytes()), Ok(signing));
}

#[test]
fn bad_sheets_are_refused() {
    let (table, _) = signed(&board()).expect("the small board is good");
    for (old, new, refusal) in [
        ("sheet=1", "sheet=2", Refusal::Line { line: 1 }),
        ("states=7", "states=8", Refusal::Line { line: 5 }),
        ("state.3=4", "state.3=04", Refusal::Line { line: 9 }),
        ("goto.5=5\n", "goto.5=5\n\n", Refusal::Line { line: 15 }),
        ("state.3=4", "state.3=1", Refusal::Sign(Signed::State(3))),
        ("goto.5=5", "goto.5=1", Refusal::Sign(Signed::Nonterminal(5))),
    ] {
        let sheet = BOARD.replace(old, new);
        assert_eq!(table.read_sheet(sheet.as_bytes()), Err(refusal), "{new}");
    }
    assert_eq!(table.read_sheet(b""), Err(Refusal::Line { line: 1 }));
}

#[test]
fn a_signing_of_another_table_has_no_sheet() {
    let (table, _) = signed(&board()).expect("the small board is good");
    assert_eq!(table.write_sheet(&largest().unsigned()), Err(Refusal::Size));
}
