//! The crate's own buffers grow until they are enough.

use slettrein::{lent, Grammar, Parse, Refusal, Room, Table};

/// S -> N 64 times, N -> nothing: no token at all takes a stack of 65 and 66 reductions.
fn empties() -> Table {
    let grammar = Grammar::new(2, 5).rule(2, &[3]).rule(3, &[4; 64]).rule(4, &[]);
    let mut entries = vec![-3, 0, 0, 65, 1];
    for state in 1..64 {
        entries.extend([-3, 0, 0, 0, state + 1]);
    }
    entries.extend([-2, 0, 0, 0, 0, -1, 0, 0, 0, 0]);
    Table::new(grammar, entries).expect("a good table")
}

/// A table of so many states, of which all but three are blank.
fn mostly_blank(states: usize) -> Vec<i32> {
    let mut entries = vec![0, 1, 0, 2, -2, 0, 0, 0, -1, 0, 0, 0];
    entries.resize(4 * states, 0);
    entries
}

#[test]
fn stack_and_list_grow() {
    let table = empties();
    let reductions = [&[3; 64][..], &[2, 1]].concat();
    let parse = Parse { reductions, moves: 66 };
    let cells = table.pack(&table.unsigned()).expect("it can be packed");
    assert_eq!(cells.parse(&[]), Ok(parse.clone()));
    assert_eq!(table.plain_parse(&table.unsigned(), &[]), Ok(parse.clone()));
    let enough = Room { stack: 65, list: 66, moves: 66 };
    assert_eq!(cells.parse_within(enough, &[]), Ok(parse));
}

#[test]
fn stack_and_list_do_not_outgrow_the_room() {
    let table = empties();
    let cells = table.pack(&table.unsigned()).expect("it can be packed");
    let all = Room::default();
    for (room, refusal, moves) in [
        (Room { stack: 64, ..all }, Refusal::Stack { index: 0 }, 63),
        (Room { list: 65, ..all }, Refusal::Output { index: 0 }, 65),
        (Room { moves: 64, ..all }, Refusal::Moves { index: 0 }, 64),
    ] {
        let stopped = cells.parse_within(room, &[]).expect_err("the room is too small");
        assert_eq!((stopped.refusal, stopped.made.moves), (refusal, moves));
        assert_eq!(stopped.made.reductions, [&[3; 64][..], &[2]].concat()[..moves]);
    }
}

#[test]
fn cells_grow() {
    let grammar = Grammar::new(2, 4).rule(2, &[3]).rule(3, &[1]);
    let entries = mostly_blank(1_000);
    let table = Table::new(grammar, entries.clone()).expect("a good table");
    let cells = table.pack(&table.unsigned()).expect("it can be packed");
    let mut lent = (vec![7; 4_096], vec![7; 4_096], vec![7; 4_096], vec![7; 1_000]);
    let said = lent::pack(
        lent::Sizes { terminals: 2, symbols: 4, rules: 2, states: 1_000 },
        lent::Grammar { left: &[2, 3], lens: &[1, 1], rights: &[3, 1] },
        &entries,
        lent::Signing { srule: &[0; 1_000], sgoto: &[0, 0] },
        lent::CellsMut { base: &mut lent.0, check: &mut lent.1, marks: &mut lent.2 },
        &mut lent.3,
    );
    let count = cells.base().len();
    assert!(count >= 2_000, "{count} cells");
    assert_eq!((said.number, said.values), (0, vec![count as u64]));
    assert_eq!((cells.base(), cells.check()), (&lent.0[..count], &lent.1[..count]));
    assert_eq!(cells.place(), lent.3);
    assert_eq!(table.pack_within(count - 1, &table.unsigned()), Err(Refusal::NoRoom));
    assert_eq!(table.pack_within(count, &table.unsigned()), Ok(cells));
}
