//! A parse: what it makes, what it may take, and how it is stopped.

use crate::lent::{Run, Said};
use crate::Refusal;

/// The most moves that document 01 allows.
const MOST_MOVES: usize = 1_000_000;

/// The most tokens that document 01 allows.
const MOST_TOKENS: usize = 65_535;

/// What a parse has made.
#[derive(Clone, Debug, Default, PartialEq, Eq)]
pub struct Parse {
    /// The rules that were reduced by, in order; the last of an accepted parse is rule 1.
    pub reductions: Vec<u32>,
    /// How many moves were made, shifts and reductions.
    pub moves: usize,
}

/// A parse that was refused.
#[derive(Clone, Debug, PartialEq, Eq)]
pub struct Stopped {
    /// Why.
    pub refusal: Refusal,
    /// What had been made by then.
    pub made: Parse,
}

impl From<Stopped> for Refusal {
    /// Why the parse was stopped.
    fn from(stopped: Stopped) -> Refusal {
        stopped.refusal
    }
}

/// How much a parse may take; by default only the moves can run out.
#[derive(Clone, Copy, Debug, PartialEq, Eq)]
pub struct Room {
    /// The most states on the stack, that at its bottom included.
    pub stack: usize,
    /// The most reductions.
    pub list: usize,
    /// The most moves, up to 1,000,000.
    pub moves: usize,
}

impl Default for Room {
    /// As many moves as there may be, and a stack and a list that so many moves cannot fill.
    fn default() -> Room {
        Room { stack: MOST_MOVES + 1, list: MOST_MOVES, moves: MOST_MOVES }
    }
}

impl Room {
    /// Parses by `call` with a stack and a list that grow until they are enough, or as large as they may be.
    ///
    /// A refused move adds nothing, so that a parse with a larger stack or list only goes further.
    pub(crate) fn parse(
        self,
        tokens: &[u32],
        symbols: usize,
        call: impl Fn(Run) -> (Said, u64),
    ) -> Result<Parse, Stopped> {
        let count = tokens.len().min(MOST_TOKENS);
        let (mut stack, mut list) = (self.stack.min(count + 64), self.list.min(4 * count + 64));
        loop {
            let done = within(stack, list, tokens, self.moves, symbols, &call);
            match done.as_ref().err().map(|stopped| stopped.refusal) {
                Some(Refusal::Stack { .. }) if stack < self.stack => {
                    stack = self.stack.min(2 * stack);
                }
                Some(Refusal::Output { .. }) if list < self.list => list = self.list.min(2 * list),
                _ => return done,
            }
        }
    }
}

/// Parses by `call` with a stack and a list of these lengths.
fn within(
    stack: usize,
    list: usize,
    tokens: &[u32],
    limit: usize,
    symbols: usize,
    call: impl Fn(Run) -> (Said, u64),
) -> Result<Parse, Stopped> {
    let (mut stack, mut list) = (vec![0; stack], vec![0; list]);
    let (said, moves) = call(Run { tokens, limit, stack: &mut stack, list: &mut list });
    let made = list.iter().position(|rule| *rule == 0).unwrap_or(list.len());
    list.truncate(made);
    let made = Parse { reductions: list, moves: moves as usize };
    match Refusal::unless_ok(said, symbols) {
        Ok(_) => Ok(made),
        Err(refusal) => Err(Stopped { refusal, made }),
    }
}
