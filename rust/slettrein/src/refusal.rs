//! What is refused, and why.

use crate::lent::Said;

/// Why something was refused: document 01's name, with its values.
#[derive(Clone, Copy, Debug, PartialEq, Eq)]
pub enum Refusal {
    /// A bound or a length is broken.
    Size,
    /// The lowest bad rule.
    Grammar { rule: usize },
    /// The lowest bad index of the table, row by row, which is that of a state and a symbol.
    Entry { index: usize, state: usize, symbol: usize },
    /// The lowest bad state, else nonterminal.
    Sign(Signed),
    /// Placement takes more cells than there may be.
    NoRoom,
    /// The least state, then the least rule, that fails the table check on some path.
    Unsound { state: usize, rule: usize },
    /// The token at this index is no terminal, or is the end mark.
    Token { index: usize },
    /// The table is blank at the token of this index.
    Syntax { index: usize },
    /// A reduction takes more from the stack than is there.
    Underflow { index: usize, rule: usize },
    /// There is no goto after a reduction.
    NoGoto { index: usize, rule: usize },
    /// The stack is full.
    Stack { index: usize },
    /// The list of reductions is full.
    Output { index: usize },
    /// The limit of moves is reached.
    Moves { index: usize },
    /// The state at this cell, or what its read led to, is malformed.
    BadCell { cell: usize },
    /// The first line of a sheet, from 1, that is not as it must be.
    Line { line: usize },
    /// The text of a sheet is longer than the buffer.
    Text,
}

/// Whose signature it is.
#[derive(Clone, Copy, Debug, PartialEq, Eq)]
pub enum Signed {
    /// A state's, which is a rule.
    State(usize),
    /// A nonterminal's, which is a state.
    Nonterminal(usize),
}

impl Refusal {
    /// The number that document 01 gives it.
    pub fn number(&self) -> u32 {
        match self {
            Refusal::Size => 1,
            Refusal::Grammar { .. } => 2,
            Refusal::Entry { .. } => 3,
            Refusal::Sign(_) => 4,
            Refusal::NoRoom => 5,
            Refusal::Unsound { .. } => 6,
            Refusal::Token { .. } => 7,
            Refusal::Syntax { .. } => 8,
            Refusal::Underflow { .. } => 9,
            Refusal::NoGoto { .. } => 10,
            Refusal::Stack { .. } => 11,
            Refusal::Output { .. } => 12,
            Refusal::Moves { .. } => 13,
            Refusal::BadCell { .. } => 14,
            Refusal::Line { .. } => 15,
            Refusal::Text => 16,
        }
    }

    /// The name that document 01 gives it.
    ///
    /// ```
    /// let refusal = slettrein::Refusal::Grammar { rule: 3 };
    /// assert_eq!((refusal.name(), refusal.number()), ("GRAMMAR", 2));
    /// ```
    pub fn name(&self) -> &'static str {
        match self {
            Refusal::Size => "SIZE",
            Refusal::Grammar { .. } => "GRAMMAR",
            Refusal::Entry { .. } => "ENTRY",
            Refusal::Sign(_) => "SIGN",
            Refusal::NoRoom => "NOROOM",
            Refusal::Unsound { .. } => "UNSOUND",
            Refusal::Token { .. } => "TOKEN",
            Refusal::Syntax { .. } => "SYNTAX",
            Refusal::Underflow { .. } => "UNDERFLOW",
            Refusal::NoGoto { .. } => "NOGOTO",
            Refusal::Stack { .. } => "STACK",
            Refusal::Output { .. } => "OUTPUT",
            Refusal::Moves { .. } => "MOVES",
            Refusal::BadCell { .. } => "BADCELL",
            Refusal::Line { .. } => "LINE",
            Refusal::Text => "TEXT",
        }
    }

    /// The index of the token at which a parse was stopped.
    pub fn index(&self) -> Option<usize> {
        match *self {
            Refusal::Token { index }
            | Refusal::Syntax { index }
            | Refusal::Underflow { index, .. }
            | Refusal::NoGoto { index, .. }
            | Refusal::Stack { index }
            | Refusal::Output { index }
            | Refusal::Moves { index } => Some(index),
            _ => None,
        }
    }

    /// The values of an OK, or the refusal that was said about a table of so many symbols.
    pub(crate) fn unless_ok(said: Said, symbols: usize) -> Result<Vec<usize>, Refusal> {
        let values: Vec<usize> = said.values.iter().map(|&value| value as usize).collect();
        match said.number {
            0 => Ok(values),
            number => Err(Refusal::said(number, &values, symbols)),
        }
    }

    /// The refusal of a number and its values.
    fn said(number: u32, values: &[usize], symbols: usize) -> Refusal {
        match (number, values) {
            (1, []) => Refusal::Size,
            (2, &[rule]) => Refusal::Grammar { rule },
            (3, &[index]) => {
                Refusal::Entry { index, state: index / symbols, symbol: index % symbols }
            }
            (4, &[0, state]) => Refusal::Sign(Signed::State(state)),
            (4, &[1, nonterminal]) => Refusal::Sign(Signed::Nonterminal(nonterminal)),
            (5, []) => Refusal::NoRoom,
            (6, &[state, rule]) => Refusal::Unsound { state, rule },
            (7, &[index]) => Refusal::Token { index },
            (8, &[index]) => Refusal::Syntax { index },
            (9, &[index, rule]) => Refusal::Underflow { index, rule },
            (10, &[index, rule]) => Refusal::NoGoto { index, rule },
            (11, &[index]) => Refusal::Stack { index },
            (12, &[index]) => Refusal::Output { index },
            (13, &[index]) => Refusal::Moves { index },
            (14, &[cell]) => Refusal::BadCell { cell },
            (15, &[line]) => Refusal::Line { line },
            (16, []) => Refusal::Text,
            _ => unreachable!("document 01 has no answer {number} with {values:?}"),
        }
    }
}
