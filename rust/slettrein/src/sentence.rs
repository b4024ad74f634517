//! Refusals as sentences, for those who work with sheets and tables.

use std::error::Error;
use std::fmt;

use crate::{Refusal, Signed, Stopped};

impl fmt::Display for Refusal {
    /// Where a parse was stopped, and why; or what is wrong.
    fn fmt(&self, f: &mut fmt::Formatter) -> fmt::Result {
        if let Some(index) = self.index() {
            write!(f, "At token {index}, counted from 0: ")?;
        }
        match self {
            Refusal::Size => f.write_str("A number is out of bounds, or a list too long or short."),
            Refusal::Grammar { rule } => write!(f, "Rule {rule} is not as a rule must be."),
            Refusal::Entry { index, state, symbol } => write!(
                f,
                "The entry of state {state} and symbol {symbol}, index {index}, is not allowed."
            ),
            Refusal::Sign(signed) => write!(f, "What is signed for {signed} cannot be signed."),
            Refusal::NoRoom => f.write_str("The table needs more cells than there may be."),
            Refusal::Unsound { state, rule } => {
                write!(f, "On some path to state {state} its reduction by rule {rule} is wrong.")
            }
            Refusal::Token { .. } => f.write_str("the notation has no such token."),
            Refusal::Syntax { .. } => {
                f.write_str("the notation does not go on with this, or may not end here.")
            }
            Refusal::Underflow { rule, .. } => {
                write!(f, "rule {rule} takes more than was read; table or cells are wrong.")
            }
            Refusal::NoGoto { rule, .. } => {
                write!(f, "nothing says where to go after rule {rule}; table or cells are wrong.")
            }
            Refusal::Stack { .. } => f.write_str("the stack was full."),
            Refusal::Output { .. } => f.write_str("the list of reductions was full."),
            Refusal::Moves { .. } => f.write_str("the limit of moves was reached."),
            Refusal::BadCell { cell } => write!(f, "Cell {cell} has no state that can be read."),
            Refusal::Line { line } => write!(f, "Line {line} of the sheet is not as it must be."),
            Refusal::Text => f.write_str("The sheet is longer than the room for it."),
        }
    }
}

impl fmt::Display for Signed {
    /// Which state or nonterminal it is.
    fn fmt(&self, f: &mut fmt::Formatter) -> fmt::Result {
        match self {
            Signed::State(state) => write!(f, "state {state}"),
            Signed::Nonterminal(nonterminal) => write!(f, "nonterminal {nonterminal}"),
        }
    }
}

impl fmt::Display for Stopped {
    /// The refusal, and how far the parse had come.
    fn fmt(&self, f: &mut fmt::Formatter) -> fmt::Result {
        write!(f, "{} Moves made before: {}.", self.refusal, self.made.moves)
    }
}

impl Error for Refusal {}

impl Error for Stopped {}
