//! What document 01 defines, in ordinary Rust, simple before fast: a second program to compare others with.

#![forbid(unsafe_code)]

mod cells;
mod check;
mod filled;
mod judge;
mod machine;
mod pack;
mod packsheet;
mod parse;
mod said;
mod sheet;

pub use cells::read;
pub use check::check;
pub use judge::judge;
pub use pack::pack;
pub use packsheet::packsheet;
pub use parse::{parse, plain};
pub use said::Said;
pub use sheet::{sheet_read, sheet_write};

/// How many terminals (T), symbols (M), rules (G) and states (L) there are.
#[derive(Clone, Copy)]
pub struct Sizes {
    pub terminals: usize,
    pub symbols: usize,
    pub rules: usize,
    pub states: usize,
}

/// The left side of each rule, the length of each right side, and the right sides one after the other.
#[derive(Clone, Copy)]
pub struct Grammar<'a> {
    pub left: &'a [u32],
    pub lens: &'a [u32],
    pub rights: &'a [u32],
}

/// The signed rule of each state and the signed state of each nonterminal from T on, 0 for none.
#[derive(Clone, Copy)]
pub struct Signing<'a> {
    pub srule: &'a [u32],
    pub sgoto: &'a [u32],
}

/// A grammar with its table, row by row, and its signing, as the caller gives them.
#[derive(Clone, Copy)]
pub(crate) struct Given<'a> {
    pub sizes: Sizes,
    pub grammar: Grammar<'a>,
    pub table: &'a [i32],
    pub signing: Signing<'a>,
}

impl<'a> Grammar<'a> {
    /// The right side of each rule, for a grammar whose lengths have been judged.
    pub(crate) fn right_sides(&self) -> Vec<&'a [u32]> {
        let mut rest = self.rights;
        let mut sides = Vec::new();
        for &length in self.lens {
            let (side, after) = rest.split_at(length as usize);
            sides.push(side);
            rest = after;
        }
        sides
    }
}
