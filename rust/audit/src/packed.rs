//! What is audited: a table, its signing, and the cells that they were packed into.

use slettrein::{Cells, Refusal, Signing, Table};

use crate::{signed, Asked};

/// A table with its name, its signing and its cells.
#[derive(Clone, Debug)]
pub struct Packed {
    pub name: String,
    pub table: Table,
    pub signing: Signing,
    pub cells: Cells,
}

impl Packed {
    /// What is asked for, judged and packed; or what it is refused with.
    pub fn new(asked: &Asked) -> Result<Packed, Refusal> {
        let most = asked.most().ok_or(Refusal::Size)?;
        let (table, signing) = signed(&asked.given)?;
        let cells = table.pack_within(most, &signing)?;
        Ok(Packed { name: asked.name.clone(), table, signing, cells })
    }

    /// The unsigned entry of a state and a symbol, 0 for blank.
    pub fn entry(&self, state: usize, symbol: usize) -> i32 {
        self.table.entry(state, symbol).unwrap_or(0)
    }

    /// What is signed for a blank of a state and a symbol, as an entry; 0 where nobody has signed.
    pub fn signed(&self, state: usize, symbol: usize) -> i32 {
        match symbol < self.table.grammar().terminals() {
            true => self.signing.rule(state).map_or(0, |rule| -(rule as i32)),
            false => self.signing.goto(symbol).map_or(0, |target| target as i32),
        }
    }

    /// The entry of the filled table.
    pub fn filled(&self, state: usize, symbol: usize) -> i32 {
        match self.entry(state, symbol) {
            0 => self.signed(state, symbol),
            entry => entry,
        }
    }

    /// The cell of a state, if the cells have that state.
    pub fn place(&self, state: usize) -> Option<usize> {
        self.cells.place().get(state).map(|&cell| cell as usize)
    }

    /// Check of a cell, if there is such a cell.
    pub fn check(&self, cell: usize) -> Option<i32> {
        self.cells.check().get(cell).copied()
    }
}
