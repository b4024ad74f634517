//! The table as it is written, as its signing fills it, and the written rows that are placed.

use crate::machine::{Action, Malformed, Reads};
use crate::Given;

/// The symbols of a written row, from low to high, each with its entry.
pub(crate) type Row = Vec<(usize, i32)>;

impl Given<'_> {
    /// The unsigned entry of state s and symbol a.
    pub(crate) fn entry(&self, s: usize, a: usize) -> i32 {
        self.table[s * self.sizes.symbols + a]
    }

    /// The entry with which the signing would fill a blank of state s and symbol a, 0 for none.
    pub(crate) fn signed(&self, s: usize, a: usize) -> i32 {
        if a < self.sizes.terminals {
            -(self.signing.srule[s] as i32)
        } else {
            self.signing.sgoto[a - self.sizes.terminals] as i32
        }
    }

    /// The entry of the filled table for state s and symbol a.
    pub(crate) fn filled(&self, s: usize, a: usize) -> i32 {
        match self.entry(s, a) {
            0 => self.signed(s, a),
            entry => entry,
        }
    }

    /// The written action row of state s.
    pub(crate) fn action_row(&self, s: usize) -> Row {
        self.written(s, 0, self.sizes.terminals)
    }

    /// The written goto row of state s.
    pub(crate) fn goto_row(&self, s: usize) -> Row {
        self.written(s, self.sizes.terminals, self.sizes.symbols)
    }

    /// The entries of state s in columns from..to without blanks and without what the signing says.
    fn written(&self, s: usize, from: usize, to: usize) -> Row {
        (from..to)
            .map(|a| (a, self.entry(s, a)))
            .filter(|&(a, entry)| entry != 0 && entry != self.signed(s, a))
            .collect()
    }
}

impl Reads for Given<'_> {
    /// What the filled table says for a state and a terminal.
    fn action(&self, state: usize, terminal: usize) -> Result<Action, Malformed> {
        let entry = self.filled(state, terminal);
        let number = entry.unsigned_abs() as usize;
        Ok(match entry {
            0 => Action::Blank,
            1.. => Action::Shift(number),
            _ => Action::Reduce(number),
        })
    }

    /// The state that the filled table gives for a state and a nonterminal.
    fn goto(&self, state: usize, nonterminal: usize) -> Result<Option<usize>, Malformed> {
        let entry = self.filled(state, nonterminal);
        Ok((entry != 0).then_some(entry.unsigned_abs() as usize))
    }
}
