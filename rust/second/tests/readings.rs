//! Small cases, worked by hand, in which a wrong reading of document 01 gives another answer.

use second::{check, judge, read, sheet_read, sheet_write};
use second::{Grammar, Said, Signing, Sizes};

/// Terminals 0 and 1 (a), nonterminals 2 (S'), 3 (S) and 4 (E).
const SIZES: Sizes = Sizes { terminals: 2, symbols: 5, rules: 2, states: 4 };

/// The rules S' to S and S to E a.
const GRAMMAR: Grammar = Grammar { left: &[2, 3], lens: &[1, 2], rights: &[3, 4, 1] };

#[rustfmt::skip]
const TABLE: [i32; 20] = [
     0, 0, 0, 3, 1,
     0, 2, 0, 0, 0,
    -2, 0, 0, 0, 0,
    -1, 0, 0, 0, 0,
];

const UNSIGNED: Signing = Signing { srule: &[0; 4], sgoto: &[0; 3] };

const SHEET: &str = "\
sheet=1
terminals=2
symbols=5
rules=2
states=4
state.0=none
state.1=none
state.2=2
state.3=none
goto.3=none
goto.4=1
";

/// An answer without a count of moves.
fn said(code: u32, values: &[u64]) -> Said {
    Said { code, values: values.to_vec(), moves: None }
}

/// What a read of symbol a at cell 0 says, for T 2, M 5 and G 3.
fn read_0(base: &[i32], check: &[i32], a: usize) -> Said {
    read(2, 5, 3, base, check, 0, a)
}

/// What the check says of the table with the given entries changed.
fn checked(changes: &[(usize, i32)]) -> Said {
    let mut table = TABLE;
    for &(index, entry) in changes {
        table[index] = entry;
    }
    check(SIZES, GRAMMAR, &table, UNSIGNED)
}

#[test]
fn a_signed_rule_is_2_to_g() {
    for (signed, said_of_it) in [(-1, said(14, &[0])), (-4, said(14, &[0])), (-3, said(0, &[2, 3]))]
    {
        assert_eq!(read_0(&[0, 0], &[5, signed], 0), said_of_it);
        assert_eq!(read_0(&[0, 0], &[5, signed], 1), said_of_it);
    }
}

#[test]
fn rule_1_and_no_shift_are_found_on_0() {
    assert_eq!(read_0(&[2, 0, -1, 0], &[5, 5, 0, 5], 0), said(0, &[3]));
    assert_eq!(read_0(&[0, 0, -1, 0], &[5, -2, 1, 5], 1), said(14, &[0]));
    assert_eq!(read_0(&[2, 0, 0, 0], &[5, -2, 0, 5], 0), said(14, &[0]));
    assert_eq!(read_0(&[0, 0, 0, 0], &[5, 5, 1, 5], 1), said(0, &[0, 2]));
}

#[test]
fn a_goto_is_a_state() {
    let check = [5, 5, 5, 5, 5, 5, 5, 3, 5];
    assert_eq!(read_0(&[0, 1, 0, 0, 0, 0, 0, -5, 0], &check, 3), said(0, &[1, 2]));
    assert_eq!(read_0(&[0, 1, 0, 0, 0, 0, 0, -3, 0], &check, 3), said(14, &[0]));
    assert_eq!(read_0(&[0, 1, 0, 0, 0, 0, 0, 0, 0], &check, 3), said(0, &[0, 7]));
    assert_eq!(read_0(&[0, 1, 0, 0, 0, 0, 0, 0], &check[..8], 3), said(14, &[0]));
}

#[test]
fn a_signed_target_is_no_pointer() {
    let check = [5, 5, 5, 5, 5, 5, 3, 5];
    assert_eq!(read_0(&[0, 0, 0, 0, 0, 0, 0, 0], &check, 3), said(0, &[0, 6]));
    assert_eq!(read_0(&[0, 0, 0, 0, 0, 0, -5, 0], &check, 3), said(14, &[0]));
    assert_eq!(read_0(&[0, 0, 0, 0, 0, 0, 0, 0], &check, 4), said(0, &[4]));
}

#[test]
fn every_path_counts() {
    assert_eq!(checked(&[]), said(0, &[]));
    let shift_from_0_to_2 = (1, 2);
    assert_eq!(checked(&[shift_from_0_to_2]), said(6, &[2, 2]));
    let goto_from_1_to_3_on_s = (5 + 3, 3);
    assert_eq!(checked(&[goto_from_1_to_3_on_s]), said(6, &[3, 1]));
    let goto_from_0_on_s = (3, 0);
    assert_eq!(checked(&[goto_from_0_on_s]), said(6, &[2, 2]));
}

#[test]
fn what_no_path_reaches_never_fails() {
    let table = [&TABLE[..], &[-2, 3, 0, 0, 0]].concat();
    let signing = Signing { srule: &[0; 5], sgoto: &[0; 3] };
    assert_eq!(check(Sizes { states: 5, ..SIZES }, GRAMMAR, &table, signing), said(0, &[]));
}

#[test]
fn rule_1_has_one_symbol() {
    let long = Grammar { lens: &[2, 2], rights: &[3, 4, 4, 1], ..GRAMMAR };
    assert_eq!(judge(SIZES, GRAMMAR, &TABLE, UNSIGNED), said(0, &[]));
    assert_eq!(judge(SIZES, long, &TABLE, UNSIGNED), said(2, &[1]));
}

#[test]
fn the_range_of_a_sheet_value_is_left_to_sign() {
    for (value, answer) in [("65535", said(4, &[0, 3])), ("65536", said(15, &[9]))] {
        let text = SHEET.replace("state.3=none", &format!("state.3={value}"));
        let (mut srule, mut sgoto) = ([7; 4], [7; 3]);
        assert_eq!(sheet_read(SIZES, text.as_bytes(), &mut srule, &mut sgoto), answer);
        assert_eq!((srule, sgoto), ([7; 4], [7; 3]));
    }
}

#[test]
fn a_buffer_of_exactly_the_length_is_enough() {
    let signing = Signing { srule: &[0, 0, 2, 0], sgoto: &[0, 0, 1] };
    let mut buffer = vec![b'#'; SHEET.len()];
    assert_eq!(sheet_write(SIZES, signing, &mut buffer[1..]), said(16, &[]));
    assert_eq!(buffer, vec![b'#'; SHEET.len()]);
    assert_eq!(sheet_write(SIZES, signing, &mut buffer), said(0, &[SHEET.len() as u64]));
    assert_eq!(String::from_utf8(buffer).unwrap(), SHEET);
}
