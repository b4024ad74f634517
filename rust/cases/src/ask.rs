//! What is asked of a program: one of the eight operations with all that the caller lends it.

/// T, M, G and L as the caller states them.
#[derive(Clone, Copy, Debug, Default, PartialEq, Eq)]
pub struct Sizes {
    pub terminals: usize,
    pub symbols: usize,
    pub rules: usize,
    pub states: usize,
}

/// T, M and G, which are all that is stated where cells are read.
#[derive(Clone, Copy, Debug, Default, PartialEq, Eq)]
pub struct Counts {
    pub terminals: usize,
    pub symbols: usize,
    pub rules: usize,
}

/// The rules: left sides, lengths of the right sides, and the right sides one after the other.
#[derive(Clone, Debug, Default, PartialEq, Eq)]
pub struct Grammar {
    pub left: Vec<u32>,
    pub lens: Vec<u32>,
    pub rights: Vec<u32>,
}

/// The signed rule of each state and the signed state of each nonterminal from T on, 0 for none.
#[derive(Clone, Debug, Default, PartialEq, Eq)]
pub struct Signing {
    pub srule: Vec<u32>,
    pub sgoto: Vec<u32>,
}

/// What the numbers 1 to 4 judge: sizes, grammar, table and signing.
#[derive(Clone, Debug, Default, PartialEq, Eq)]
pub struct Given {
    pub sizes: Sizes,
    pub grammar: Grammar,
    pub table: Vec<i32>,
    pub signing: Signing,
}

/// The arrays Base and Check.
#[derive(Clone, Debug, Default, PartialEq, Eq)]
pub struct Cells {
    pub base: Vec<i32>,
    pub check: Vec<i32>,
}

/// What a parse is given to run on: tokens, move limit, and the stack and list as they stand before.
#[derive(Clone, Debug, Default, PartialEq, Eq)]
pub struct Run {
    pub tokens: Vec<u32>,
    pub limit: usize,
    pub stack: Vec<u32>,
    pub list: Vec<u32>,
}

/// The eight operations.
#[derive(Clone, Copy, Debug, PartialEq, Eq, Hash)]
pub enum Op {
    Pack,
    Read,
    Parse,
    Plain,
    Check,
    SheetRead,
    SheetWrite,
    PackSheet,
}

/// One operation with its arguments.
#[derive(Clone, Debug, PartialEq, Eq)]
pub enum Ask {
    Pack { given: Given, cells: Cells, marks: Vec<u32>, place: Vec<u32> },
    Read { counts: Counts, cells: Cells, x: usize, a: usize },
    Parse { counts: Counts, grammar: Grammar, cells: Cells, run: Run },
    Plain { given: Given, run: Run },
    Check { given: Given },
    SheetRead { sizes: Sizes, signing: Signing, text: Vec<u8> },
    SheetWrite { sizes: Sizes, signing: Signing, buffer: Vec<u8> },
    PackSheet { text: Vec<u8> },
}

/// A named asking.
#[derive(Clone, Debug, PartialEq, Eq)]
pub struct Case {
    pub name: String,
    pub ask: Ask,
}

impl Sizes {
    /// The part of the sizes that a reader of cells is told.
    pub fn counts(&self) -> Counts {
        Counts { terminals: self.terminals, symbols: self.symbols, rules: self.rules }
    }
}

impl Grammar {
    /// Adds a rule at the end.
    pub fn push(&mut self, left: usize, right: &[u32]) {
        self.left.push(left as u32);
        self.lens.push(right.len() as u32);
        self.rights.extend_from_slice(right);
    }

    /// Where the right side of a rule from 1 on stands in `rights`; the lengths must add up.
    pub fn span(&self, rule: usize) -> std::ops::Range<usize> {
        let start = self.lens[..rule - 1].iter().map(|&n| n as usize).sum();
        start..start + self.lens[rule - 1] as usize
    }

    /// The right side of a rule from 1 on.
    pub fn right(&self, rule: usize) -> &[u32] {
        &self.rights[self.span(rule)]
    }

    /// Puts another right side in the place of a rule's, so that the lengths still add up.
    pub fn set_right(&mut self, rule: usize, right: &[u32]) {
        let span = self.span(rule);
        self.lens[rule - 1] = right.len() as u32;
        self.rights.splice(span, right.iter().copied());
    }
}

impl Op {
    /// Every operation, in the order of the form.
    pub const ALL: [Op; 8] = [
        Op::Pack,
        Op::Read,
        Op::Parse,
        Op::Plain,
        Op::Check,
        Op::SheetRead,
        Op::SheetWrite,
        Op::PackSheet,
    ];

    /// The name after `op` in a case.
    pub fn name(self) -> &'static str {
        match self {
            Op::Pack => "pack",
            Op::Read => "read",
            Op::Parse => "parse",
            Op::Plain => "plain",
            Op::Check => "check",
            Op::SheetRead => "sheet_read",
            Op::SheetWrite => "sheet_write",
            Op::PackSheet => "packsheet",
        }
    }

    /// The operation of that name.
    pub fn named(name: &str) -> Option<Op> {
        Op::ALL.into_iter().find(|op| op.name() == name)
    }
}

impl Ask {
    /// The operation that is asked for.
    pub fn op(&self) -> Op {
        match self {
            Ask::Pack { .. } => Op::Pack,
            Ask::Read { .. } => Op::Read,
            Ask::Parse { .. } => Op::Parse,
            Ask::Plain { .. } => Op::Plain,
            Ask::Check { .. } => Op::Check,
            Ask::SheetRead { .. } => Op::SheetRead,
            Ask::SheetWrite { .. } => Op::SheetWrite,
            Ask::PackSheet { .. } => Op::PackSheet,
        }
    }
}
