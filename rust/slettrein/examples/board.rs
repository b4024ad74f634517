//! The small board: its sheet is read, its table checked and packed, and tokens are parsed with the cells.
//!
//!     cargo run --release --offline --manifest-path rust/Cargo.toml --target-dir rust/target -p slettrein --example board

use slettrein::{Cells, Grammar, Refusal, Table};

/// The signing of the small board.
const SHEET: &str = "\
sheet=1
terminals=3
symbols=6
rules=5
states=7
state.0=none
state.1=none
state.2=3
state.3=4
state.4=none
state.5=2
state.6=5
goto.4=1
goto.5=5
";

/// The small board: its rules are S' -> S, S -> S E, S -> E, E -> a and E -> b a.
fn board() -> Result<Table, Refusal> {
    let grammar = Grammar::new(3, 6)
        .rule(3, &[4])
        .rule(4, &[4, 5])
        .rule(4, &[5])
        .rule(5, &[1])
        .rule(5, &[2, 1]);
    #[rustfmt::skip]
    let entries = vec![
         0,  3,  4, 0, 1, 2,
        -1,  3,  4, 0, 0, 5,
        -3, -3, -3, 0, 0, 0,
        -4, -4, -4, 0, 0, 0,
         0,  6,  0, 0, 0, 0,
        -2, -2, -2, 0, 0, 0,
        -5, -5, -5, 0, 0, 0,
    ];
    Table::new(grammar, entries)
}

/// The tokens of a text of the letters `a` and `b`; any other letter is the token 3, which the board does not have.
fn tokens(text: &str) -> Vec<u32> {
    text.chars().map(|letter| "ab".find(letter).map_or(3, |place| place as u32 + 1)).collect()
}

/// Says what a parse of a text comes to.
fn tell(cells: &Cells, text: &str) {
    match cells.parse(&tokens(text)) {
        Ok(parse) => println!("`{text}`: {} moves, rules {:?}.", parse.moves, parse.reductions),
        Err(stopped) => println!("`{text}`: {stopped}"),
    }
}

fn main() -> Result<(), Refusal> {
    let table = board()?;
    let signing = table.read_sheet(SHEET.as_bytes())?;
    table.check(&signing)?;
    let cells = table.pack(&signing)?;
    println!("The table of {} states takes {} cells.", table.states(), cells.base().len());
    for text in ["baa", "a", "", "b", "aab", "abba", "ac"] {
        tell(&cells, text);
    }
    Ok(())
}
