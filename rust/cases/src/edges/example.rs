//! Small good examples from which the edges are made, and their cells as document 01 places them.

use crate::ask::{Ask, Cells, Given, Grammar, Run, Signing, Sizes};

/// Rule 1 is S' to S and every other rule S to nothing, unsigned. State 0 reduces by rule 2 before
/// the end mark and goes to state 1 on S, which accepts; every other state is blank. With one rule
/// state 0 has the goto alone. Sizes out of bounds give arrays of the lengths that they would ask for.
pub fn least(terminals: usize, symbols: usize, rules: usize, states: usize) -> Given {
    let sizes = Sizes { terminals, symbols, rules, states };
    let mut grammar = Grammar::default();
    for rule in 1..=rules {
        match rule {
            1 => grammar.push(terminals, &[terminals as u32 + 1]),
            _ => grammar.push(terminals + 1, &[]),
        }
    }
    let mut table = vec![0; states * symbols];
    let reduce = if rules > 1 { -2 } else { 0 };
    for (at, entry) in [(0, reduce), (terminals + 1, 1), (symbols, -1)] {
        if at < table.len() {
            table[at] = entry;
        }
    }
    let sgoto = vec![0; symbols.saturating_sub(terminals)];
    Given { sizes, grammar, table, signing: Signing { srule: vec![0; states], sgoto } }
}

/// The cells of `least` with two states. State 0 is at 0; its row needs b alone, and cell 1 is taken,
/// so b is 2, or 1 for the empty row of a grammar of one rule. Its goto row has base 1 and places
/// state 1 at 1 + 2(T+1). The row of state 1 needs b alone and takes the next b after that of state 0.
pub fn least_cells(terminals: usize, symbols: usize, rules: usize) -> Cells {
    let target = 2 * terminals + 3;
    let mut cells = blank_cells(symbols, target + 2);
    put_cell(&mut cells, 1, 1, symbols as i32);
    let accept = if rules > 1 { 3 } else { 2 };
    if rules > 1 {
        put_cell(&mut cells, 2, -2, 0);
    }
    put_cell(&mut cells, 0, accept - 1, symbols as i32);
    put_cell(&mut cells, accept as usize, -1, 0);
    put_cell(&mut cells, target, accept, terminals as i32 + 1);
    cells
}

/// The count of cells of `least`. Beside the cells of states 0 and 1 there are 2 cells of rows, or 1
/// for a grammar of one rule; the blank states stand in pairs from there up to state 1, T-1 of them,
/// or T, and the rest after it.
pub fn least_count(given: &Given) -> usize {
    let Sizes { terminals, rules, states, .. } = given.sizes;
    let before = if rules > 1 { terminals - 1 } else { terminals };
    2 * terminals + 5 + 2 * (states - 2).saturating_sub(before)
}

/// S to nothing is rule 2 and S to S a is rule 3, over T 2 and M 4: n tokens 1 take n+2 reductions
/// and 2n+2 moves, and a stack of 3 if there is any token.
pub fn row() -> Given {
    let mut grammar = Grammar::default();
    grammar.push(2, &[3]);
    grammar.push(3, &[]);
    grammar.push(3, &[3, 1]);
    let table = vec![-2, -2, 0, 1, -1, 2, 0, 0, -3, -3, 0, 0];
    let sizes = Sizes { terminals: 2, symbols: 4, rules: 3, states: 3 };
    Given { sizes, grammar, table, signing: Signing { srule: vec![0; 3], sgoto: vec![0; 2] } }
}

/// The cells of `row`: state 1 is at 7 and state 2 at 5; the rows have the bases 2, 3 and 9.
pub fn row_cells() -> Cells {
    Cells {
        base: vec![2, 1, -2, -1, -2, 9, 0, 3, 0, -3, 0, -3],
        check: vec![4, 4, 0, 0, 1, 1, 4, 3, 4, 0, 4, 1],
    }
}

/// S to S is rule 2 and S to nothing is rule 3: after its first move it reduces by rule 2 for ever.
pub fn ring() -> Given {
    let mut given = least(2, 4, 3, 2);
    given.grammar.set_right(2, &[3]);
    given.table[0] = -3;
    given.table[4] = -2;
    given
}

/// The cells of `ring`, which stand as those of `least`.
pub fn ring_cells() -> Cells {
    let mut cells = least_cells(2, 4, 3);
    cells.base[2] = -3;
    cells.base[3] = -2;
    cells
}

/// Rule 2 has 64 symbols 1 and state 2 shifts 1 to itself, so that only 64 tokens are accepted.
pub fn long() -> Given {
    let mut given = least(2, 4, 2, 3);
    given.grammar.set_right(2, &[1; 64]);
    given.table = vec![0, 2, 0, 1, -1, 0, 0, 0, -2, 2, 0, 0];
    given
}

/// The cells of `long`: state 1 is at 7 and state 2 at 3; the rows have the bases 1, 2 and 9, and the
/// shift of state 2 to itself is a pointer, -(2 + 3).
pub fn long_cells() -> Cells {
    Cells {
        base: vec![1, 1, -1, 9, 0, 0, 0, 2, 0, -2, 0, -5],
        check: vec![4, 4, 0, 1, 4, 4, 4, 3, 4, 0, 4, 1],
    }
}

/// Every example whose cells are worked out by hand, with its cells and the place list.
pub fn packed_by_hand() -> Vec<(Given, Cells, Vec<u32>)> {
    let mut list = vec![
        (row(), row_cells(), vec![0, 7, 5]),
        (ring(), ring_cells(), vec![0, 7]),
        (long(), long_cells(), vec![0, 7, 3]),
    ];
    for (terminals, symbols, rules) in [(2, 4, 1), (2, 4, 2), (3, 7, 5), (256, 512, 1_024)] {
        let given = least(terminals, symbols, rules, 2);
        let place = vec![0, 2 * terminals as u32 + 3];
        list.push((given, least_cells(terminals, symbols, rules), place));
    }
    list
}

/// Cells that nothing stands in but state 0, which has the action base 1.
pub fn blank_cells(symbols: usize, width: usize) -> Cells {
    let mut cells = Cells { base: vec![0; width], check: vec![symbols as i32; width] };
    cells.base.first_mut().into_iter().for_each(|base| *base = 1);
    cells
}

/// Writes one cell.
pub fn put_cell(cells: &mut Cells, at: usize, base: i32, check: i32) {
    cells.base[at] = base;
    cells.check[at] = check;
}

/// An asking to pack into so many cells.
pub fn pack(given: Given, width: usize) -> Ask {
    let cells = Cells { base: vec![7; width], check: vec![-7; width] };
    let place = vec![7; given.signing.srule.len()];
    Ask::Pack { given, cells, marks: vec![7; width], place }
}

/// An asking to parse with a table.
pub fn plain(given: Given, run: Run) -> Ask {
    Ask::Plain { given, run }
}

/// An asking to parse with cells that were packed of this grammar.
pub fn parse(given: &Given, cells: Cells, run: Run) -> Ask {
    Ask::Parse { counts: given.sizes.counts(), grammar: given.grammar.clone(), cells, run }
}

/// So many tokens 1 with room for them and a list of that length.
pub fn run(tokens: usize, limit: usize, stack: usize, list: usize) -> Run {
    Run { tokens: vec![1; tokens], limit, stack: vec![7; stack], list: vec![7; list] }
}
