//! The walk through the cells: they must be those of the table and its signing.

use std::error::Error;
use std::fmt;

use slettrein::{Read, Way};

use crate::Packed;

/// Why cells are not those of a table and its signing: the first place where they are not.
#[derive(Clone, Copy, Debug, PartialEq, Eq)]
pub enum Astray {
    /// A read does not give the entry of the filled table.
    Read { state: usize, symbol: usize },
    /// What stands beside a state is not what is signed for it.
    Rule { state: usize },
    /// The state that is signed for a nonterminal does not stand where it must.
    Goto { nonterminal: usize },
}

impl fmt::Display for Astray {
    /// Where to look.
    fn fmt(&self, f: &mut fmt::Formatter) -> fmt::Result {
        f.write_str("The cells are not those of this table and signing: ")?;
        match self {
            Astray::Read { state, symbol } => {
                write!(f, "state {state} answers otherwise to symbol {symbol}.")
            }
            Astray::Rule { state } => write!(f, "another rule stands beside state {state}."),
            Astray::Goto { nonterminal } => {
                write!(f, "the signature of nonterminal {nonterminal} is not there.")
            }
        }
    }
}

impl Error for Astray {}

/// Reads every state with every symbol, and looks at every cell where a signature stands or could stand.
pub fn walk(packed: &Packed) -> Result<(), Astray> {
    let (terminals, symbols) =
        (packed.table.grammar().terminals(), packed.table.grammar().symbols());
    for state in 0..packed.table.states() {
        if let Some(symbol) = (0..symbols).find(|&symbol| !reads(packed, state, symbol)) {
            return Err(Astray::Read { state, symbol });
        }
        if !rule_stands(packed, state) {
            return Err(Astray::Rule { state });
        }
    }
    match (terminals..symbols).find(|&nonterminal| !goto_stands(packed, nonterminal)) {
        Some(nonterminal) => Err(Astray::Goto { nonterminal }),
        None => Ok(()),
    }
}

/// Whether the read of a state and a symbol gives the entry of the filled table.
fn reads(packed: &Packed, state: usize, symbol: usize) -> bool {
    let Some(cell) = packed.place(state) else { return false };
    match (packed.cells.read(cell, symbol), packed.filled(state, symbol)) {
        (Ok(Read::Blank), 0) | (Ok(Read::Accept), -1) => true,
        (Ok(Read::Reduce(rule)), entry) => entry < -1 && entry.unsigned_abs() as usize == rule,
        (Ok(Read::Shift(Way::Direct(cell) | Way::Pointer(cell))), entry) => {
            entry > 0 && packed.place(entry as usize) == Some(cell)
        }
        _ => false,
    }
}

/// Whether the signed rule of a state stands in its attached cell, or the empty mark where it has none.
fn rule_stands(packed: &Packed, state: usize) -> bool {
    let empty = packed.table.grammar().symbols() as i32;
    let expected = packed.signing.rule(state).map_or(empty, |rule| -(rule as i32));
    packed.place(state).and_then(|cell| packed.check(cell + 1)) == Some(expected)
}

/// Whether the signed state of a nonterminal A, if it has one, stands at cell 2A.
fn goto_stands(packed: &Packed, nonterminal: usize) -> bool {
    let Some(state) = packed.signing.goto(nonterminal) else { return true };
    let cell = 2 * nonterminal;
    packed.place(state) == Some(cell) && packed.check(cell) == Some(nonterminal as i32)
}
