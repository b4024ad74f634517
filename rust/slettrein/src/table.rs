//! A grammar's table: judged, signed, packed, and parsed with as it is.

use crate::{lent, Cells, Grammar, Parse, Refusal, Room, Signing, Stopped};

/// The most symbols that document 01 allows.
const MOST_SYMBOLS: usize = 512;

/// The most cells that document 01 allows.
pub const MOST_CELLS: usize = 65_536;

/// As many cells are tried first.
const FIRST_CELLS: usize = 1_024;

/// A good grammar with a table of good entries.
#[derive(Clone, Debug, PartialEq, Eq)]
pub struct Table {
    grammar: Grammar,
    states: usize,
    entries: Vec<i32>,
}

impl Table {
    /// The table of a grammar, M entries for each state: SIZE, GRAMMAR or ENTRY where they are not good.
    ///
    /// Under a terminal 0 is blank, t is shift to state t, -r is reduce by rule r and -1 is accept;
    /// under a nonterminal 0 is blank and t is the state to go to.
    ///
    /// ```
    /// use slettrein::{Grammar, Refusal, Table};
    ///
    /// let grammar = Grammar::new(2, 4).rule(2, &[3]).rule(3, &[1]);
    /// let refusal = Table::new(grammar, vec![0, 1, 0, 2, -2, -1, 0, 0, -1, 0, 0, 0]).unwrap_err();
    /// assert_eq!(refusal, Refusal::Entry { index: 5, state: 1, symbol: 1 });
    /// assert_eq!(refusal.number(), 3);
    /// assert_eq!(refusal.to_string(), "The entry of state 1 and symbol 1, index 5, is not allowed.");
    /// ```
    pub fn new(grammar: Grammar, entries: Vec<i32>) -> Result<Table, Refusal> {
        let states = entries.len().checked_div(grammar.symbols()).unwrap_or(0);
        let table = Table { grammar, states, entries };
        table.judge(&table.unsigned())?;
        Ok(table)
    }

    /// The grammar.
    pub fn grammar(&self) -> &Grammar {
        &self.grammar
    }

    /// L: how many states there are.
    pub fn states(&self) -> usize {
        self.states
    }

    /// The unsigned entry of a state and a symbol, if there are such.
    pub fn entry(&self, state: usize, symbol: usize) -> Option<i32> {
        if symbol >= self.grammar.symbols() {
            return None;
        }
        let row = state.checked_mul(self.grammar.symbols())?;
        self.entries.get(row.checked_add(symbol)?).copied()
    }

    /// The signing that signs nothing.
    pub fn unsigned(&self) -> Signing {
        let terminals = self.grammar.terminals();
        let gotos = self.grammar.symbols().saturating_sub(terminals).min(MOST_SYMBOLS);
        Signing::new(terminals, vec![0; self.states], vec![0; gotos])
    }

    /// The signing with a rule for each state and a state for each nonterminal from the start symbol on,
    /// 0 for none: SIZE or SIGN where it is not good.
    ///
    /// ```
    /// use slettrein::{Grammar, Refusal, Signed, Table};
    ///
    /// let grammar = Grammar::new(2, 4).rule(2, &[3]).rule(3, &[1]);
    /// let table = Table::new(grammar, vec![0, 1, 0, 2, -2, 0, 0, 0, -1, 0, 0, 0])?;
    /// let signing = table.sign(vec![0, 2, 0], vec![0, 2])?;
    /// assert_eq!((signing.rule(1), signing.goto(3), signing.rule(0)), (Some(2), Some(2), None));
    /// let refusal = table.sign(vec![0, 3, 0], vec![0, 2]).unwrap_err();
    /// assert_eq!(refusal, Refusal::Sign(Signed::State(1)));
    /// # Ok::<(), Refusal>(())
    /// ```
    pub fn sign(&self, rules: Vec<u32>, gotos: Vec<u32>) -> Result<Signing, Refusal> {
        let signing = Signing::new(self.grammar.terminals(), rules, gotos);
        self.judge(&signing)?;
        Ok(signing)
    }

    /// The table check of the table and a signing of it: UNSOUND where a reduction does not fit every path to its state.
    ///
    /// A table that passes it accepts nothing that its grammar does not allow.
    ///
    /// ```
    /// use slettrein::{Grammar, Refusal, Table};
    ///
    /// let grammar = Grammar::new(2, 4).rule(2, &[3]).rule(3, &[1]);
    /// let table = Table::new(grammar, vec![0, 1, 0, 2, -2, 0, 0, 0, -1, 0, 0, 0])?;
    /// assert_eq!(table.check(&table.unsigned()), Ok(()));
    /// let wrong = table.sign(vec![2, 0, 0], vec![0, 0])?;
    /// assert_eq!(table.check(&wrong), Err(Refusal::Unsound { state: 0, rule: 2 }));
    /// # Ok::<(), Refusal>(())
    /// ```
    pub fn check(&self, signing: &Signing) -> Result<(), Refusal> {
        let (sizes, grammar) = (self.sizes(), self.grammar.lend());
        let said = lent::check(sizes, grammar, &self.entries, signing.lend());
        Refusal::unless_ok(said, self.grammar.symbols()).map(drop)
    }

    /// Packs the table and a signing of it: NOROOM where that takes more than 65,536 cells.
    pub fn pack(&self, signing: &Signing) -> Result<Cells, Refusal> {
        self.pack_within(MOST_CELLS, signing)
    }

    /// Packs the table and a signing of it into so many cells at most.
    pub fn pack_within(&self, most: usize, signing: &Signing) -> Result<Cells, Refusal> {
        let most = most.min(MOST_CELLS);
        let mut width = most.min(FIRST_CELLS);
        loop {
            match self.pack_into(width, signing) {
                Err(Refusal::NoRoom) if width < most => width = most.min(4 * width),
                done => return done,
            }
        }
    }

    /// Parses tokens with the table as its signing fills it, with as much room as a parse may take.
    ///
    /// ```
    /// use slettrein::{Grammar, Refusal, Table};
    ///
    /// // S' -> S, S -> a; state 1, after `a`, is blank and is signed with rule 2.
    /// let grammar = Grammar::new(2, 4).rule(2, &[3]).rule(3, &[1]);
    /// let table = Table::new(grammar, vec![0, 1, 0, 2, 0, 0, 0, 0, -1, 0, 0, 0])?;
    /// let signing = table.sign(vec![0, 2, 0], vec![0, 0])?;
    /// let parse = table.plain_parse(&signing, &[1])?;
    /// assert_eq!(table.pack(&signing)?.parse(&[1]), Ok(parse));
    /// let stopped = table.plain_parse(&table.unsigned(), &[1]).unwrap_err();
    /// assert_eq!(stopped.refusal, Refusal::Syntax { index: 1 });
    /// # Ok::<(), Refusal>(())
    /// ```
    pub fn plain_parse(&self, signing: &Signing, tokens: &[u32]) -> Result<Parse, Stopped> {
        self.plain_parse_within(Room::default(), signing, tokens)
    }

    /// Parses tokens with the table as its signing fills it, within so much room.
    pub fn plain_parse_within(
        &self,
        room: Room,
        signing: &Signing,
        tokens: &[u32],
    ) -> Result<Parse, Stopped> {
        room.parse(tokens, self.grammar.symbols(), |run| {
            lent::plain(self.sizes(), self.grammar.lend(), &self.entries, signing.lend(), run)
        })
    }

    /// T, M, G and L.
    pub(crate) fn sizes(&self) -> lent::Sizes {
        let lent::Counts { terminals, symbols, rules } = self.grammar.counts();
        lent::Sizes { terminals, symbols, rules, states: self.states }
    }

    /// The judgement of the table with a signing.
    fn judge(&self, signing: &Signing) -> Result<(), Refusal> {
        let (sizes, grammar) = (self.sizes(), self.grammar.lend());
        let said = lent::judge(sizes, grammar, &self.entries, signing.lend());
        Refusal::unless_ok(said, self.grammar.symbols()).map(drop)
    }

    /// Packs into exactly so many cells, and leaves off those after the highest taken.
    fn pack_into(&self, width: usize, signing: &Signing) -> Result<Cells, Refusal> {
        let (mut base, mut check, mut marks) = (vec![0; width], vec![0; width], vec![0; width]);
        let mut place = vec![0; self.states];
        let said = lent::pack(
            self.sizes(),
            self.grammar.lend(),
            &self.entries,
            signing.lend(),
            lent::CellsMut { base: &mut base, check: &mut check, marks: &mut marks },
            &mut place,
        );
        let values = Refusal::unless_ok(said, self.grammar.symbols())?;
        let [count] = values[..] else {
            unreachable!("document 01 has no packing with {values:?}")
        };
        base.truncate(count);
        check.truncate(count);
        Ok(Cells { grammar: self.grammar.clone(), base, check, place })
    }
}
