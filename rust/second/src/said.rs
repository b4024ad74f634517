//! The numbers of document 01's answers, and an answer with the values that come with it.

pub(crate) const OK: u32 = 0;
pub(crate) const SIZE: u32 = 1;
pub(crate) const GRAMMAR: u32 = 2;
pub(crate) const ENTRY: u32 = 3;
pub(crate) const SIGN: u32 = 4;
pub(crate) const NOROOM: u32 = 5;
pub(crate) const UNSOUND: u32 = 6;
pub(crate) const TOKEN: u32 = 7;
pub(crate) const SYNTAX: u32 = 8;
pub(crate) const UNDERFLOW: u32 = 9;
pub(crate) const NOGOTO: u32 = 10;
pub(crate) const STACK: u32 = 11;
pub(crate) const OUTPUT: u32 = 12;
pub(crate) const MOVES: u32 = 13;
pub(crate) const BADCELL: u32 = 14;
pub(crate) const LINE: u32 = 15;
pub(crate) const TEXT: u32 = 16;

/// The number of the answer, the values that come with it in the order of document 01's table,
/// and the count of moves where a parse gives one.
#[derive(Clone, Debug, PartialEq, Eq)]
pub struct Said {
    pub code: u32,
    pub values: Vec<u64>,
    pub moves: Option<u64>,
}

impl Said {
    /// An answer with these values and no count of moves.
    pub(crate) fn new(code: u32, values: &[usize]) -> Said {
        let values = values.iter().map(|&value| value as u64).collect();
        Said { code, values, moves: None }
    }

    /// The same answer with the count of moves that a parse gives.
    pub(crate) fn after(mut self, moves: usize) -> Said {
        self.moves = Some(moves as u64);
        self
    }
}
