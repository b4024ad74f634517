//! Tables made from a grammar: the small board's is document 01's, others are worked out by hand, too large ones refused.

use cases::{board, lr_table, Grammar, Sizes};

/// The number that the table maker gives each state of the small board.
const NUMBERS: [i32; 7] = [0, 3, 4, 1, 2, 6, 5];

/// The small board's table with its states in the table maker's order.
fn renumbered(table: &[i32], symbols: usize) -> Vec<i32> {
    let mut rows = vec![Vec::new(); NUMBERS.len()];
    for (state, row) in table.chunks(symbols).enumerate() {
        let entry = |&e: &i32| if e > 0 { NUMBERS[e as usize] } else { e };
        rows[NUMBERS[state] as usize] = row.iter().map(entry).collect();
    }
    rows.concat()
}

/// A grammar of that many terminals whose sentences are each one of them.
fn one_of(terminals: usize) -> (Sizes, Grammar) {
    let mut grammar = Grammar::default();
    grammar.push(terminals, &[terminals as u32 + 1]);
    for token in 1..terminals as u32 {
        grammar.push(terminals + 1, &[token]);
    }
    let sizes = Sizes { terminals, symbols: terminals + 2, rules: terminals, states: 0 };
    (sizes, grammar)
}

/// S -> A B, A -> a, B -> b or nothing, over `a` 1, `b` 2, S 4, A 5 and B 6.
fn with_nothing() -> (Sizes, Grammar) {
    let mut grammar = Grammar::default();
    for (left, right) in [(3, &[4][..]), (4, &[5, 6]), (5, &[1]), (6, &[2]), (6, &[])] {
        grammar.push(left, right);
    }
    (Sizes { terminals: 3, symbols: 7, rules: 5, states: 0 }, grammar)
}

#[test]
fn the_small_boards_table_comes_from_its_grammar() {
    let board = board();
    let made = lr_table(&board.sizes, &board.grammar, 7, false);
    assert_eq!(made, Some(renumbered(&board.table, board.sizes.symbols)));
}

#[test]
fn what_can_be_nothing_is_looked_through() {
    let (sizes, grammar) = with_nothing();
    #[rustfmt::skip]
    let expected = [
         0, 1,  0, 0, 2, 3, 0,
        -3, 0, -3, 0, 0, 0, 0,
        -1, 0,  0, 0, 0, 0, 0,
        -5, 0,  4, 0, 0, 0, 5,
        -4, 0,  0, 0, 0, 0, 0,
        -2, 0,  0, 0, 0, 0, 0,
    ];
    assert_eq!(lr_table(&sizes, &grammar, 6, false).as_deref(), Some(&expected[..]));
}

#[test]
fn reductions_stand_under_all_terminals_if_so_asked() {
    let (sizes, grammar) = with_nothing();
    #[rustfmt::skip]
    let expected = [
         0,  1,  0, 0, 2, 3, 0,
        -3, -3, -3, 0, 0, 0, 0,
        -1,  0,  0, 0, 0, 0, 0,
        -5, -5,  4, 0, 0, 0, 5,
        -4, -4, -4, 0, 0, 0, 0,
        -2, -2, -2, 0, 0, 0, 0,
    ];
    assert_eq!(lr_table(&sizes, &grammar, 6, true).as_deref(), Some(&expected[..]));
}

#[test]
fn the_last_of_128_terminals_is_read() {
    let (sizes, grammar) = one_of(128);
    let table = lr_table(&sizes, &grammar, 129, false).expect("a table");
    assert_eq!(table.len(), 129 * 130);
    assert_eq!((table[127], table[127 * 130], table[129]), (127, -128, 128));
}

#[test]
fn what_is_too_large_has_no_table() {
    let board = board();
    assert_eq!(lr_table(&board.sizes, &board.grammar, 6, false), None);
    let (sizes, grammar) = one_of(129);
    assert_eq!(lr_table(&sizes, &grammar, 1_024, false), None);
}
