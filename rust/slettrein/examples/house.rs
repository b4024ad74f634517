//! The house notation: its table is checked and packed, and books are parsed with the cells.
//!
//!     cargo run --release --offline --manifest-path rust/Cargo.toml --target-dir rust/target -p slettrein --example house

use slettrein::{house, Cells, Refusal};

/// A book of two variants, the names of its tokens.
const BOOK: &str = "
    VARIANT NAME PITS EQUALS NUMBER SEEDS EQUALS NUMBER SOW EQUALS LEFT LAPS EQUALS RELAY CAPTURE EQUALS OPPOSITE
    VARIANT NAME PITS EQUALS NUMBER SEEDS EQUALS NUMBER SOW EQUALS RIGHT LAPS EQUALS SINGLE CAPTURE EQUALS EXACT NUMBER THEN NOTHING";

/// Says what a parse of a book comes to.
fn tell(cells: &Cells, what: &str, names: &[&str]) {
    let tokens: Vec<u32> = names.iter().filter_map(|name| house::token(name)).collect();
    match cells.parse(&tokens) {
        Ok(parse) => {
            println!("{what}: {} reductions, {} moves.", parse.reductions.len(), parse.moves)
        }
        Err(stopped) => println!("{what}: {stopped}"),
    }
}

fn main() -> Result<(), Refusal> {
    let table = house::table();
    table.check(&table.unsigned())?;
    let cells = table.pack(&table.unsigned())?;
    println!("The table of {} states takes {} cells.", table.states(), cells.base().len());
    let names: Vec<&str> = BOOK.split_whitespace().collect();
    tell(&cells, "The book", &names);
    let capture = names.iter().position(|name| *name == "CAPTURE").unwrap_or(0);
    let lacking = [&names[..capture], &names[capture + 3..]].concat();
    tell(&cells, "The book without its first CAPTURE field", &lacking);
    Ok(())
}
