//! The small board: the cells and the parses that document 01 works out.

mod common;

use cases::board;
use common::signed;
use slettrein::{Cells, Refusal, Room, Signing, Table};

/// The tokens `b a a`.
const BAA: [u32; 3] = [2, 1, 1];

/// The small board, signed, and its cells.
fn packed() -> (Table, Signing, Cells) {
    let (table, signing) = signed(&board()).expect("the small board is good");
    let cells = table.pack(&signing).expect("the small board can be packed");
    (table, signing, cells)
}

/// Parses with the cells and with the table, which must do the same: the refusal, the reductions and the moves.
fn parsed(room: Room, tokens: &[u32]) -> (Option<Refusal>, Vec<u32>, usize) {
    let (table, signing, cells) = packed();
    let with_cells = cells.parse_within(room, tokens);
    assert_eq!(with_cells, table.plain_parse_within(room, &signing, tokens), "{tokens:?}");
    match with_cells {
        Ok(parse) => (None, parse.reductions, parse.moves),
        Err(stopped) => (Some(stopped.refusal), stopped.made.reductions, stopped.made.moves),
    }
}

#[test]
fn the_cells_are_those_of_document_01() {
    let (table, signing, cells) = packed();
    let base = [1, 2, 0, 2, 0, 17, 0, 0, 14, 0, 2, 0, 2, 0, -1, 0, -8, 0, -10, 2, 0];
    let check = [6, 6, 6, 1, -4, 2, 6, 6, 4, 6, 5, -2, 5, -3, 0, 6, 1, 6, 2, 1, -5];
    assert_eq!((cells.base(), cells.check()), (&base[..], &check[..]));
    assert_eq!(cells.place(), [0, 8, 12, 3, 5, 10, 19]);
    assert_eq!(cells.grammar(), table.grammar());
    assert_eq!(table.pack_within(20, &signing), Err(Refusal::NoRoom));
    assert_eq!(table.pack_within(21, &signing), Ok(cells));
    assert_eq!(table.pack_within(1, &signing), Err(Refusal::Size));
}

#[test]
fn good_tokens_are_accepted() {
    let all = Room::default();
    assert_eq!(parsed(all, &BAA), (None, vec![5, 3, 4, 2, 1], 8));
    assert_eq!(parsed(all, &[1]), (None, vec![4, 3, 1], 4));
    let enough = Room { stack: 3, list: 5, moves: 8 };
    assert_eq!(parsed(enough, &BAA), (None, vec![5, 3, 4, 2, 1], 8));
}

#[test]
fn bad_tokens_are_refused_where_they_stand() {
    let all = Room::default();
    assert_eq!(parsed(all, &[]), (Some(Refusal::Syntax { index: 0 }), vec![], 0));
    assert_eq!(parsed(all, &[2]), (Some(Refusal::Syntax { index: 1 }), vec![], 1));
    assert_eq!(parsed(all, &[3]), (Some(Refusal::Token { index: 0 }), vec![], 0));
    let many = vec![1; 65_536];
    assert_eq!(parsed(all, &many), (Some(Refusal::Size), vec![], 0));
    assert_eq!(parsed(all, &many[1..]).0, None);
}

#[test]
fn a_parse_keeps_within_its_room() {
    let all = Room::default();
    let moves = Refusal::Moves { index: 3 };
    assert_eq!(parsed(Room { moves: 7, ..all }, &BAA), (Some(moves), vec![5, 3, 4, 2], 7));
    let stack = Refusal::Stack { index: 1 };
    assert_eq!(parsed(Room { stack: 2, ..all }, &BAA), (Some(stack), vec![], 1));
    let nothing = Refusal::Stack { index: 0 };
    assert_eq!(parsed(Room { stack: 0, ..all }, &BAA), (Some(nothing), vec![], 0));
    let output = Refusal::Output { index: 3 };
    assert_eq!(parsed(Room { list: 4, ..all }, &BAA), (Some(output), vec![5, 3, 4, 2], 7));
    assert_eq!(parsed(Room { moves: 1_000_001, ..all }, &BAA).0, Some(Refusal::Size));
}

#[test]
fn a_signature_fills_a_blank() {
    let mut given = board();
    given.table[3 * 6 + 2] = 0;
    let (table, signing) = signed(&given).expect("a blank entry is good");
    let unsigned = table.pack(&table.unsigned()).expect("it can be packed");
    let stopped = unsigned.parse(&[1, 2, 1]).expect_err("nobody has signed");
    assert_eq!((stopped.refusal, stopped.made.moves), (Refusal::Syntax { index: 1 }, 1));
    let signed = table.pack(&signing).expect("it can be packed");
    let parse = signed.parse(&[1, 2, 1]).expect("state 3 is signed with rule 4");
    assert_eq!(parse.reductions, [4, 3, 5, 2, 1]);
}
