//! Numbers at the ends of their bounds and of their types: a refusal or an answer, and never an overflow.

use second::{check, judge, pack, parse, plain, read, sheet_read, sheet_write};
use second::{Grammar, Said, Signing, Sizes};

const SIZES: Sizes = Sizes { terminals: 2, symbols: 4, rules: 2, states: 2 };

/// The rules A' to A and A to nothing, with terminal 1 unused.
const GRAMMAR: Grammar = Grammar { left: &[2, 3], lens: &[1, 0], rights: &[3] };

const TABLE: [i32; 8] = [-2, 0, 0, 1, -1, 0, 0, 0];

const UNSIGNED: Signing = Signing { srule: &[0; 2], sgoto: &[0; 2] };

const MANY: usize = usize::MAX;

/// An answer without a count of moves.
fn said(code: u32, values: &[u64]) -> Said {
    Said { code, values: values.to_vec(), moves: None }
}

/// Reads symbol a at cell x of cells for T 2, M 4 and G 2.
fn read_at(base: &[i32], check: &[i32], x: usize, a: usize) -> Said {
    read(2, 4, 2, base, check, x, a)
}

/// Parses with the plain table with plenty of room.
fn plainly(tokens: &[u32], limit: usize) -> Said {
    plain(SIZES, GRAMMAR, &TABLE, UNSIGNED, tokens, limit, &mut [7; 4], &mut [7; 4])
}

/// Judges a blank table of these sizes, unsigned, where every rule but the first has an empty right side.
fn blank(terminals: usize, symbols: usize, rules: usize, states: usize) -> Said {
    let sizes = Sizes { terminals, symbols, rules, states };
    let nonterminal = terminals as u32 + 1;
    let left = [vec![nonterminal - 1], vec![nonterminal; rules]].concat();
    let lens = [vec![1], vec![0; rules]].concat();
    let rights = vec![nonterminal; rules.min(1)];
    let grammar = Grammar { left: &left[..rules], lens: &lens[..rules], rights: &rights };
    let (srule, sgoto) = (vec![0; states], vec![0; symbols - terminals]);
    let signing = Signing { srule: &srule, sgoto: &sgoto };
    judge(sizes, grammar, &vec![0; states * symbols], signing)
}

#[test]
fn sizes_at_their_bounds() {
    for [t, m, g, l] in [[2, 4, 1, 2], [256, 512, 1_024, 1_024], [256, 258, 1, 2]] {
        assert_eq!(blank(t, m, g, l), said(0, &[]));
    }
    for [t, m] in [[1, 4], [257, 512], [2, 3], [256, 257], [256, 513]] {
        assert_eq!(blank(t, m, 2, 2), said(1, &[]));
    }
    for [g, l] in [[0, 2], [1_025, 2], [2, 1], [2, 1_025]] {
        assert_eq!(blank(2, 4, g, l), said(1, &[]));
    }
}

#[test]
fn sizes_of_any_number() {
    for broken in [
        Sizes { terminals: MANY, ..SIZES },
        Sizes { symbols: MANY, ..SIZES },
        Sizes { rules: MANY, ..SIZES },
        Sizes { states: MANY, ..SIZES },
        Sizes { terminals: MANY, symbols: MANY, rules: MANY, states: MANY },
        Sizes { terminals: 0, symbols: 0, rules: 0, states: 0 },
    ] {
        let (mut one, mut two) = ([7; 2], [7; 2]);
        let (mut base, mut cells) = ([7; 9], [7; 9]);
        assert_eq!(judge(broken, GRAMMAR, &TABLE, UNSIGNED), said(1, &[]));
        assert_eq!(check(broken, GRAMMAR, &TABLE, UNSIGNED), said(1, &[]));
        assert_eq!(sheet_read(broken, b"", &mut one, &mut two), said(1, &[]));
        assert_eq!(sheet_write(broken, UNSIGNED, &mut []), said(1, &[]));
        let mut marks = [7; 9];
        let lent = (&mut base, &mut cells, &mut marks, &mut one);
        let packed = pack(broken, GRAMMAR, &TABLE, UNSIGNED, lent.0, lent.1, lent.2, lent.3);
        assert_eq!(packed, said(1, &[]));
        let ran = plain(broken, GRAMMAR, &TABLE, UNSIGNED, &[], 9, &mut one, &mut two);
        assert_eq!(ran, said(1, &[]));
        assert_eq!((base, cells, marks, one, two), ([7; 9], [7; 9], [7; 9], [7; 2], [7; 2]));
    }
}

#[test]
fn arrays_of_no_length() {
    let no_rules = Grammar { left: &[], lens: &[], rights: &[] };
    let no_signing = Signing { srule: &[], sgoto: &[] };
    assert_eq!(judge(SIZES, no_rules, &[], no_signing), said(1, &[]));
    assert_eq!(read_at(&[], &[], 0, 0), said(1, &[]));
    let ran = parse(2, 4, 2, no_rules, &[], &[], &[], 0, &mut [], &mut []);
    assert_eq!(ran, said(1, &[]));
    let ran = plain(SIZES, GRAMMAR, &TABLE, UNSIGNED, &[], 9, &mut [], &mut []);
    assert_eq!(ran, Said { moves: Some(0), ..said(11, &[0]) });
}

#[test]
fn contents_of_any_number() {
    let long = Grammar { lens: &[u32::MAX, u32::MAX], ..GRAMMAR };
    assert_eq!(judge(SIZES, long, &TABLE, UNSIGNED), said(1, &[]));
    let odd = Grammar { left: &[2, u32::MAX], ..GRAMMAR };
    assert_eq!(judge(SIZES, odd, &TABLE, UNSIGNED), said(2, &[2]));
    let odd = Grammar { rights: &[u32::MAX], ..GRAMMAR };
    assert_eq!(judge(SIZES, odd, &TABLE, UNSIGNED), said(2, &[1]));
    for (index, entry) in [(5, i32::MIN), (7, i32::MAX), (6, -1), (4, 1)] {
        let mut table = TABLE;
        table[index] = entry;
        assert_eq!(judge(SIZES, GRAMMAR, &table, UNSIGNED), said(3, &[index as u64]));
    }
    let odd = Signing { srule: &[2, u32::MAX], ..UNSIGNED };
    assert_eq!(judge(SIZES, GRAMMAR, &TABLE, odd), said(4, &[0, 1]));
    let odd = Signing { sgoto: &[0, u32::MAX], ..UNSIGNED };
    assert_eq!(judge(SIZES, GRAMMAR, &TABLE, odd), said(4, &[1, 3]));
}

#[test]
fn tokens_and_limit_at_their_bounds() {
    let accepted = Said { moves: Some(2), ..said(0, &[2, 2]) };
    assert_eq!(plainly(&[], 1_000_000), accepted);
    assert_eq!(plainly(&[], 1_000_001), said(1, &[]));
    assert_eq!(plainly(&[], MANY), said(1, &[]));
    assert_eq!(plainly(&[u32::MAX; 65_535], 9), Said { moves: Some(0), ..said(7, &[0]) });
    assert_eq!(plainly(&[1; 65_536], 9), said(1, &[]));
}

#[test]
fn cells_at_their_bounds() {
    assert_eq!(read_at(&[0; 2], &[4; 2], 0, 0), said(0, &[4]));
    assert_eq!(read_at(&[0; 65_536], &[4; 65_536], 65_534, 3), said(0, &[4]));
    assert_eq!(read_at(&[0; 65_536], &[4; 65_536], 65_535, 3), said(14, &[65_535]));
    assert_eq!(read_at(&[0; 1], &[4; 1], 0, 0), said(1, &[]));
    assert_eq!(read_at(&[0; 65_537], &[4; 65_537], 0, 0), said(1, &[]));
    assert_eq!(read_at(&[0; 2], &[4; 3], 0, 0), said(1, &[]));
    assert_eq!(read_at(&[0; 2], &[4; 2], 0, 4), said(1, &[]));
    assert_eq!(read_at(&[0; 2], &[4; 2], MANY, 0), said(14, &[MANY as u64]));
    assert_eq!(read_at(&[0; 2], &[4; 2], MANY, MANY), said(1, &[]));
}

#[test]
fn cells_of_any_number() {
    let far = [i32::MAX; 2];
    assert_eq!(read_at(&far, &[4, -2], 0, 1), said(0, &[2, 2]));
    assert_eq!(read_at(&far, &[4, i32::MIN], 0, 1), said(14, &[0]));
    assert_eq!(read_at(&far, &[4, i32::MAX], 0, 1), said(0, &[4]));
    assert_eq!(read_at(&far, &[4, -2], 0, 3), said(0, &[4]));
    assert_eq!(read_at(&[i32::MIN, 1], &[4, -2], 0, 1), said(14, &[0]));
    assert_eq!(read_at(&[0, 0, i32::MIN, 0], &[4, 4, 1, 4], 0, 1), said(14, &[0]));
    assert_eq!(read_at(&[0, i32::MIN, 0, 0], &[4; 4], 0, 3), said(0, &[4]));
}
