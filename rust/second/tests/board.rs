//! The small board of document 01: its worked output and P1 to P12.

use second::{check, judge, pack, packsheet, parse, plain, sheet_read, sheet_write};
use second::{Grammar, Said, Signing, Sizes};

const SIZES: Sizes = Sizes { terminals: 3, symbols: 6, rules: 5, states: 7 };

const GRAMMAR: Grammar =
    Grammar { left: &[3, 4, 4, 5, 5], lens: &[1, 2, 1, 1, 2], rights: &[4, 4, 5, 5, 1, 2, 1] };

#[rustfmt::skip]
const TABLE: [i32; 42] = [
     0,  3,  4, 0, 1, 2,
    -1,  3,  4, 0, 0, 5,
    -3, -3, -3, 0, 0, 0,
    -4, -4, -4, 0, 0, 0,
     0,  6,  0, 0, 0, 0,
    -2, -2, -2, 0, 0, 0,
    -5, -5, -5, 0, 0, 0,
];

const SIGNED: Signing = Signing { srule: &[0, 0, 3, 4, 0, 2, 5], sgoto: &[0, 1, 5] };

const UNSIGNED: Signing = Signing { srule: &[0; 7], sgoto: &[0; 3] };

const A: u32 = 1;
const B: u32 = 2;

const SHEET: &str = "\
sheet=1
terminals=3
symbols=6
rules=5
states=7
state.0=none
state.1=none
state.2=3
state.3=4
state.4=none
state.5=2
state.6=5
goto.4=1
goto.5=5
";

const PRINTED: &str = "\
cells=21
0=1,6
1=2,6
2=0,6
3=2,1
4=0,-4
5=17,2
6=0,6
7=0,6
8=14,4
9=0,6
10=2,5
11=0,-2
12=2,5
13=0,-3
14=-1,0
15=0,6
16=-8,1
17=0,6
18=-10,2
19=2,1
20=0,-5
";

/// An answer without a count of moves.
fn said(code: u32, values: &[u64]) -> Said {
    Said { code, values: values.to_vec(), moves: None }
}

/// The answer of a parse after so many moves.
fn parsed(code: u32, values: &[u64], moves: u64) -> Said {
    Said { code, values: values.to_vec(), moves: Some(moves) }
}

/// Packs a table of the board into so many cells: the answer, and Base, Check, marks and the place list.
fn packed(table: &[i32], signing: Signing, w: usize) -> (Said, [Vec<i32>; 2], [Vec<u32>; 2]) {
    let [mut base, mut check] = [vec![7; w], vec![7; w]];
    let [mut marks, mut place] = [vec![7; w], vec![7; 7]];
    let lent = (&mut base, &mut check, &mut marks, &mut place);
    let said = pack(SIZES, GRAMMAR, table, signing, lent.0, lent.1, lent.2, lent.3);
    (said, [base, check], [marks, place])
}

/// Parses with the cells and with the plain table, which must say the same: the answer and the list.
fn both(table: &[i32], signing: Signing, tokens: &[u32], room: Room) -> (Said, Vec<u32>) {
    let (limit, mut stack, mut list) = (room.limit, vec![7; room.stack], vec![7; room.list]);
    let by_table = plain(SIZES, GRAMMAR, table, signing, tokens, limit, &mut stack, &mut list);
    assert_eq!(stack, vec![0; room.stack]);
    let by_table = (by_table, list);

    let (mut stack, mut list) = (vec![7; room.stack], vec![7; room.list]);
    let (_, [base, check], _) = packed(table, signing, 64);
    let lent = (&mut stack, &mut list);
    let by_cells = parse(3, 6, 5, GRAMMAR, &base, &check, tokens, limit, lent.0, lent.1);
    assert_eq!(stack, vec![0; room.stack]);

    assert_eq!((by_cells, list), by_table);
    by_table
}

/// The move limit, and the lengths of the stack and of the list.
#[derive(Clone, Copy)]
struct Room {
    limit: usize,
    stack: usize,
    list: usize,
}

const ROOM: Room = Room { limit: 1_000, stack: 10, list: 6 };

/// Parses with the board as it is signed.
fn signed(tokens: &[u32], room: Room) -> (Said, Vec<u32>) {
    both(&TABLE, SIGNED, tokens, room)
}

/// Checks the board with this signing of its states.
fn checked(srule: [u32; 7]) -> Said {
    check(SIZES, GRAMMAR, &TABLE, Signing { srule: &srule, sgoto: SIGNED.sgoto })
}

#[test]
fn the_worked_output() {
    assert_eq!(String::from_utf8(packsheet(SHEET.as_bytes())).unwrap(), PRINTED);
}

#[test]
fn the_worked_sheet() {
    let (mut srule, mut sgoto) = ([7; 7], [7; 3]);
    let length = SHEET.len() as u64;
    assert_eq!(sheet_read(SIZES, SHEET.as_bytes(), &mut srule, &mut sgoto), said(0, &[length]));
    assert_eq!((&srule[..], &sgoto[..]), (SIGNED.srule, SIGNED.sgoto));
    let mut buffer = vec![b'#'; SHEET.len() + 2];
    assert_eq!(sheet_write(SIZES, SIGNED, &mut buffer), said(0, &[length]));
    assert_eq!(String::from_utf8(buffer).unwrap(), format!("{SHEET}##"));
}

#[test]
fn refusals_of_the_program() {
    let signed_1 = SHEET.replace("state.0=none", "state.0=1");
    assert_eq!(packsheet(signed_1.as_bytes()), b"refused=4\n");
    assert_eq!(packsheet(&[b'x'; 65_536]), b"refused=15\n");
    assert_eq!(packsheet(&[b'x'; 65_537]), b"refused=16\n");
}

#[test]
fn the_board_is_good() {
    assert_eq!(judge(SIZES, GRAMMAR, &TABLE, SIGNED), said(0, &[]));
    assert_eq!(check(SIZES, GRAMMAR, &TABLE, SIGNED), said(0, &[]));
    assert_eq!(check(SIZES, GRAMMAR, &TABLE, UNSIGNED), said(0, &[]));
}

#[test]
fn p1() {
    let list = vec![5, 3, 4, 2, 1, 0];
    assert_eq!(signed(&[B, A, A], ROOM), (parsed(0, &[5, 8], 8), list));
}

#[test]
fn p2() {
    let list = vec![4, 3, 1, 0, 0, 0];
    assert_eq!(signed(&[A], ROOM), (parsed(0, &[3, 4], 4), list));
}

#[test]
fn p3() {
    assert_eq!(signed(&[], ROOM), (parsed(8, &[0], 0), vec![0; 6]));
}

#[test]
fn p4() {
    assert_eq!(signed(&[B], ROOM), (parsed(8, &[1], 1), vec![0; 6]));
}

#[test]
fn p5() {
    let (answer, list) = signed(&[B, A, A], Room { limit: 7, ..ROOM });
    assert_eq!((answer, list), (parsed(13, &[3], 7), vec![5, 3, 4, 2, 0, 0]));
    let (answer, list) = signed(&[B, A, A], Room { limit: 8, ..ROOM });
    assert_eq!((answer, list), (parsed(0, &[5, 8], 8), vec![5, 3, 4, 2, 1, 0]));
}

#[test]
fn p6() {
    let (answer, list) = signed(&[B, A, A], Room { stack: 2, ..ROOM });
    assert_eq!((answer, list), (parsed(11, &[1], 1), vec![0; 6]));
    let (answer, list) = signed(&[B, A, A], Room { stack: 3, ..ROOM });
    assert_eq!((answer, list), (parsed(0, &[5, 8], 8), vec![5, 3, 4, 2, 1, 0]));
}

#[test]
fn p7() {
    let (answer, list) = signed(&[B, A, A], Room { list: 4, ..ROOM });
    assert_eq!((answer, list), (parsed(12, &[3], 7), vec![5, 3, 4, 2]));
}

#[test]
fn p8() {
    assert_eq!(signed(&[3], ROOM), (parsed(7, &[0], 0), vec![0; 6]));
}

#[test]
fn p9() {
    let noroom = (said(5, &[]), [vec![0; 20], vec![0; 20]], [vec![0; 20], vec![0; 7]]);
    assert_eq!(packed(&TABLE, SIGNED, 20), noroom);
    assert_eq!(packed(&TABLE, SIGNED, 21).0, said(0, &[21]));
}

#[test]
fn p10() {
    assert_eq!(checked([0, 0, 3, 4, 4, 2, 5]), said(6, &[4, 4]));
}

#[test]
fn p11() {
    assert_eq!(checked([0, 2, 3, 4, 0, 2, 5]), said(0, &[]));
    assert_eq!(checked([4, 0, 3, 4, 0, 2, 5]), said(6, &[0, 4]));
}

#[test]
fn p12() {
    let mut table = TABLE;
    table[3 * 6 + 2] = 0;
    let (answer, list) = both(&table, UNSIGNED, &[A, B, A], ROOM);
    assert_eq!((answer, list), (parsed(8, &[1], 1), vec![0; 6]));
    let (answer, list) = both(&table, SIGNED, &[A, B, A], ROOM);
    assert_eq!((answer, list), (parsed(0, &[5, 8], 8), vec![4, 3, 5, 2, 1, 0]));
}
