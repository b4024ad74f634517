//! Packed cells: how they are read, and parsing with them.

use crate::{lent, Grammar, Parse, Refusal, Room, Stopped};

/// A packed table: Base and Check, the cell of each state, and the grammar; a [`Table`](crate::Table) makes them.
#[derive(Clone, Debug, PartialEq, Eq)]
pub struct Cells {
    pub(crate) grammar: Grammar,
    pub(crate) base: Vec<i32>,
    pub(crate) check: Vec<i32>,
    pub(crate) place: Vec<u32>,
}

/// What a read answers.
#[derive(Clone, Copy, Debug, PartialEq, Eq)]
pub enum Read {
    /// The symbol leads to the state at a cell.
    Shift(Way),
    /// Reduce by this rule.
    Reduce(usize),
    /// The tokens are accepted.
    Accept,
    /// The table is blank, and nobody has signed.
    Blank,
}

/// How the cell of a shift's state was found.
#[derive(Clone, Copy, Debug, PartialEq, Eq)]
pub enum Way {
    /// The symbol's own cell is the state's.
    Direct(usize),
    /// The symbol's own cell points to the state's.
    Pointer(usize),
}

impl Cells {
    /// The grammar whose table was packed.
    pub fn grammar(&self) -> &Grammar {
        &self.grammar
    }

    /// The array Base, up to the highest cell taken.
    pub fn base(&self) -> &[i32] {
        &self.base
    }

    /// The array Check, which is as long.
    pub fn check(&self) -> &[i32] {
        &self.check
    }

    /// The place list: the cell of each state.
    pub fn place(&self) -> &[u32] {
        &self.place
    }

    /// Reads a symbol at the state at a cell: SIZE where there is no such symbol, BADCELL where no state can be read.
    ///
    /// ```
    /// use slettrein::{Grammar, Read, Refusal, Table, Way};
    ///
    /// let grammar = Grammar::new(2, 4).rule(2, &[3]).rule(3, &[1]);
    /// let table = Table::new(grammar, vec![0, 1, 0, 2, -2, 0, 0, 0, -1, 0, 0, 0])?;
    /// let cells = table.pack(&table.unsigned())?;
    /// let after_a = cells.place()[1] as usize;
    /// assert_eq!(cells.read(0, 1), Ok(Read::Shift(Way::Direct(after_a))));
    /// assert_eq!(cells.read(after_a, 0), Ok(Read::Reduce(2)));
    /// assert_eq!(cells.read(after_a, 1), Ok(Read::Blank));
    /// assert_eq!(cells.read(99, 0), Err(Refusal::BadCell { cell: 99 }));
    /// # Ok::<(), Refusal>(())
    /// ```
    pub fn read(&self, cell: usize, symbol: usize) -> Result<Read, Refusal> {
        let said = lent::read(self.grammar.counts(), self.lend(), cell, symbol);
        let values = Refusal::unless_ok(said, self.grammar.symbols())?;
        Ok(match values[..] {
            [0, cell] => Read::Shift(Way::Direct(cell)),
            [1, cell] => Read::Shift(Way::Pointer(cell)),
            [2, rule] => Read::Reduce(rule),
            [3] => Read::Accept,
            [4] => Read::Blank,
            _ => unreachable!("document 01 has no read with {values:?}"),
        })
    }

    /// Parses tokens, with as much room as a parse may take.
    pub fn parse(&self, tokens: &[u32]) -> Result<Parse, Stopped> {
        self.parse_within(Room::default(), tokens)
    }

    /// Parses tokens within so much room.
    ///
    /// ```
    /// use slettrein::{Grammar, Refusal, Room, Table};
    ///
    /// let grammar = Grammar::new(2, 4).rule(2, &[3]).rule(3, &[1]);
    /// let table = Table::new(grammar, vec![0, 1, 0, 2, -2, 0, 0, 0, -1, 0, 0, 0])?;
    /// let cells = table.pack(&table.unsigned())?;
    /// let stopped = cells.parse_within(Room { moves: 2, ..Room::default() }, &[1]).unwrap_err();
    /// assert_eq!(stopped.refusal, Refusal::Moves { index: 1 });
    /// assert_eq!((stopped.made.reductions, stopped.made.moves), (vec![2], 2));
    /// # Ok::<(), Refusal>(())
    /// ```
    pub fn parse_within(&self, room: Room, tokens: &[u32]) -> Result<Parse, Stopped> {
        let (counts, grammar) = (self.grammar.counts(), self.grammar.lend());
        room.parse(tokens, self.grammar.symbols(), |run| {
            lent::parse(counts, grammar, self.lend(), run)
        })
    }

    /// The cells as they are lent.
    fn lend(&self) -> lent::Cells<'_> {
        lent::Cells { base: &self.base, check: &self.check }
    }
}
