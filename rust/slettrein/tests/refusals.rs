//! Each refusal has its number, its name and its sentence, and bad input brings the right one.

mod common;

use cases::board;
use common::signed;
use slettrein::{Grammar, Refusal, Signed, Table};

/// Each refusal with its number, its name and its sentence, which for those of a parse begins with the token.
#[rustfmt::skip]
fn all() -> Vec<(Refusal, u32, &'static str, &'static str)> {
    use Refusal::*;
    let (index, state, rule, symbol) = (31, 4, 7, 2);
    vec![
        (Size, 1, "SIZE", "A number is out of bounds, or a list too long or short."),
        (Grammar { rule }, 2, "GRAMMAR", "Rule 7 is not as a rule must be."),
        (Entry { index, state, symbol }, 3, "ENTRY", "The entry of state 4 and symbol 2, index 31, is not allowed."),
        (Sign(Signed::State(4)), 4, "SIGN", "What is signed for state 4 cannot be signed."),
        (Sign(Signed::Nonterminal(5)), 4, "SIGN", "What is signed for nonterminal 5 cannot be signed."),
        (NoRoom, 5, "NOROOM", "The table needs more cells than there may be."),
        (Unsound { state, rule }, 6, "UNSOUND", "On some path to state 4 its reduction by rule 7 is wrong."),
        (Token { index }, 7, "TOKEN", "the notation has no such token."),
        (Syntax { index }, 8, "SYNTAX", "the notation does not go on with this, or may not end here."),
        (Underflow { index, rule }, 9, "UNDERFLOW", "rule 7 takes more than was read; table or cells are wrong."),
        (NoGoto { index, rule }, 10, "NOGOTO", "nothing says where to go after rule 7; table or cells are wrong."),
        (Stack { index }, 11, "STACK", "the stack was full."),
        (Output { index }, 12, "OUTPUT", "the list of reductions was full."),
        (Moves { index }, 13, "MOVES", "the limit of moves was reached."),
        (BadCell { cell: 9 }, 14, "BADCELL", "Cell 9 has no state that can be read."),
        (Line { line: 3 }, 15, "LINE", "Line 3 of the sheet is not as it must be."),
        (Text, 16, "TEXT", "The sheet is longer than the room for it."),
    ]
}

/// A table of two states without gotos, over S -> a, in which state 0 has these entries for the end mark and for `a`.
fn lost(end: i32, a: i32) -> Table {
    let grammar = Grammar::new(2, 4).rule(2, &[3]).rule(3, &[1]);
    Table::new(grammar, vec![end, a, 0, 0, -2, 0, 0, 0]).expect("a good table")
}

#[test]
fn every_refusal_has_its_number_its_name_and_its_sentence() {
    for (refusal, number, name, sentence) in all() {
        assert_eq!(refusal.number(), number, "{refusal:?}");
        assert_eq!(refusal.name(), name, "{refusal:?}");
        let of_a_parse = (7..=13).contains(&number);
        assert_eq!(refusal.index(), of_a_parse.then_some(31), "{refusal:?}");
        let place = if of_a_parse { "At token 31, counted from 0: " } else { "" };
        assert_eq!(refusal.to_string(), format!("{place}{sentence}"));
    }
}

#[test]
fn tables_are_refused() {
    let good = board();
    let mut wrong = good.clone();
    wrong.grammar.left[2] = 1;
    assert_eq!(signed(&wrong), Err(Refusal::Grammar { rule: 3 }));
    wrong = good.clone();
    wrong.table[13] = -1;
    assert_eq!(signed(&wrong), Err(Refusal::Entry { index: 13, state: 2, symbol: 1 }));
    wrong = good.clone();
    wrong.signing.srule[4] = 1;
    assert_eq!(signed(&wrong), Err(Refusal::Sign(Signed::State(4))));
    wrong = good;
    wrong.signing.sgoto[2] = 1;
    assert_eq!(signed(&wrong), Err(Refusal::Sign(Signed::Nonterminal(5))));
}

#[test]
fn lists_of_other_lengths_are_refused() {
    let (table, _) = signed(&board()).expect("the small board is good");
    for length in [0, 41, 43] {
        let other = Table::new(table.grammar().clone(), vec![0; length]);
        assert_eq!(other, Err(Refusal::Size), "{length} entries");
    }
    assert_eq!(table.sign(vec![0; 6], vec![0; 3]), Err(Refusal::Size));
    assert_eq!(table.sign(vec![0; 7], vec![0; 4]), Err(Refusal::Size));
}

#[test]
fn numbers_far_out_of_bounds_are_refused() {
    for (terminals, symbols) in [(0, 0), (3, 0), (6, 3), (3, usize::MAX), (usize::MAX, 6)] {
        let grammar = Grammar::new(terminals, symbols).rule(usize::MAX, &[u32::MAX]);
        assert_eq!(Table::new(grammar, vec![0; 42]), Err(Refusal::Size), "{terminals} {symbols}");
    }
}

#[test]
fn a_signing_of_another_table_is_refused() {
    let (table, signing) = signed(&board()).expect("the small board is good");
    let other = lost(0, 1);
    assert_eq!(other.pack(&signing), Err(Refusal::Size));
    assert_eq!(other.plain_parse(&signing, &[]).map_err(Refusal::from), Err(Refusal::Size));
    assert_eq!(table.pack(&other.unsigned()), Err(Refusal::Size));
}

#[test]
fn unsound_tables_stop_a_parse() {
    for (table, tokens, refusal, moves) in [
        (lost(-2, 0), &[][..], Refusal::Underflow { index: 0, rule: 2 }, 0),
        (lost(0, 1), &[1], Refusal::NoGoto { index: 1, rule: 2 }, 1),
    ] {
        let cells = table.pack(&table.unsigned()).expect("it can be packed");
        let stopped = cells.parse(tokens).expect_err("the table is unsound");
        assert_eq!((stopped.refusal, stopped.made.moves), (refusal, moves));
        assert_eq!(stopped.to_string(), format!("{refusal} Moves made before: {moves}."));
    }
}

#[test]
fn reads_are_refused() {
    let (table, signing) = signed(&board()).expect("the small board is good");
    let cells = table.pack(&signing).expect("the small board can be packed");
    assert_eq!(cells.read(0, 6), Err(Refusal::Size));
    assert_eq!(cells.read(14, 0), Err(Refusal::BadCell { cell: 14 }));
    assert_eq!(cells.read(usize::MAX, 0), Err(Refusal::BadCell { cell: usize::MAX }));
}
