//! Cells of another table or signing are told apart.

use audit::{signed, Astray, Packed, Report};
use cases::board;
use slettrein::{Cells, Grammar, Signing, Table};

/// What a report on a table with other cells says.
fn astray(table: &Table, signing: &Signing, cells: &Cells) -> Astray {
    let name = "cells of something else".to_string();
    let (table, signing, cells) = (table.clone(), signing.clone(), cells.clone());
    Report::new(&Packed { name, table, signing, cells }).expect_err("cells of something else")
}

/// A table over S -> a in which every state has a goto on S.
fn all_gotos() -> Table {
    let grammar = Grammar::new(2, 4).rule(2, &[3]).rule(3, &[1]);
    Table::new(grammar, vec![0, 1, 0, 2, -2, 0, 0, 2, -1, 0, 0, 2]).expect("a good table")
}

#[test]
fn a_blank_that_is_not_filled_is_noticed() {
    let (table, signing) = signed(&board()).expect("the small board is good");
    let unsigned = table.pack(&table.unsigned()).expect("it can be packed");
    let found = astray(&table, &signing, &unsigned);
    assert_eq!(found, Astray::Read { state: 1, symbol: 4 });
    let told = "The cells are not those of this table and signing: \
                state 1 answers otherwise to symbol 4.";
    assert_eq!(found.to_string(), told);
}

#[test]
fn a_signature_that_is_not_there_is_noticed() {
    let (table, _) = signed(&board()).expect("the small board is good");
    let rules = table.sign(vec![0, 0, 3, 4, 0, 2, 5], vec![0, 0, 0]).expect("a good signing");
    let unsigned = table.pack(&table.unsigned()).expect("it can be packed");
    assert_eq!(astray(&table, &rules, &unsigned), Astray::Rule { state: 2 });
    let table = all_gotos();
    let gotos = table.sign(vec![0; 3], vec![0, 2]).expect("a good signing");
    let unsigned = table.pack(&table.unsigned()).expect("it can be packed");
    assert_eq!(astray(&table, &gotos, &unsigned), Astray::Goto { nonterminal: 3 });
}

#[test]
fn a_signature_that_nobody_gave_is_noticed() {
    let (table, _) = signed(&board()).expect("the small board is good");
    let rules = table.sign(vec![0, 0, 3, 4, 0, 2, 5], vec![0, 0, 0]).expect("a good signing");
    let cells = table.pack(&rules).expect("it can be packed");
    assert_eq!(astray(&table, &table.unsigned(), &cells), Astray::Rule { state: 2 });
}

#[test]
fn the_cells_of_another_table_are_noticed() {
    let (table, signing) = signed(&board()).expect("the small board is good");
    let other = all_gotos();
    let cells = other.pack(&other.unsigned()).expect("it can be packed");
    assert_eq!(astray(&table, &signing, &cells), Astray::Read { state: 0, symbol: 1 });
}
