//! What is to be audited: a table with its signing, as a file has it.

use std::error::Error;
use std::fmt;
use std::io::BufRead;

use cases::{board, read, Ask, Case, Fault, Given, Op};
use slettrein::MOST_CELLS;

use crate::words::plain;

/// A table and its signing as they are given, not judged yet.
#[derive(Clone, Debug, PartialEq, Eq)]
pub struct Asked {
    pub name: String,
    pub given: Given,
    /// How long Base, Check, marks and the place list are, where arrays are lent.
    pub lent: Option<[usize; 4]>,
}

/// Why a text is not one table with its signing.
#[derive(Clone, Debug, PartialEq, Eq)]
pub enum Unread {
    /// It is no run of cases.
    Form(Fault),
    /// It has so many cases and not one.
    Count(usize),
    /// Its case is of an operation that has no table with a signing to pack.
    Op(Op),
}

impl Asked {
    /// The small board of document 01, signed as there.
    pub fn board() -> Asked {
        Asked { name: "small board".to_string(), given: board(), lent: None }
    }

    /// The table of a text that is one case, of `check` or of `pack`.
    pub fn read(from: impl BufRead) -> Result<Asked, Unread> {
        let cases: Result<Vec<Case>, Fault> =
            read(from).map(|entry| entry.map(|entry| entry.case)).collect();
        let cases = cases.map_err(Unread::Form)?;
        let count = cases.len();
        match <[Case; 1]>::try_from(cases) {
            Ok([case]) => Asked::case(case),
            Err(_) => Err(Unread::Count(count)),
        }
    }

    /// The table of a case.
    pub fn case(case: Case) -> Result<Asked, Unread> {
        let (given, lent) = match case.ask {
            Ask::Check { given } => (given, None),
            Ask::Pack { given, cells, marks, place } => {
                let lengths = [cells.base.len(), cells.check.len(), marks.len(), place.len()];
                (given, Some(lengths))
            }
            other => return Err(Unread::Op(other.op())),
        };
        Ok(Asked { name: case.name, given, lent })
    }

    /// The most cells that it may be packed into; nothing where the lent arrays are not as long as they must be.
    pub fn most(&self) -> Option<usize> {
        let Some([base, check, marks, place]) = self.lent else { return Some(MOST_CELLS) };
        let fits = (2..=MOST_CELLS).contains(&base)
            && (check, marks, place) == (base, base, self.given.sizes.states);
        fits.then_some(base)
    }
}

impl fmt::Display for Unread {
    /// What is wrong with the text.
    fn fmt(&self, f: &mut fmt::Formatter) -> fmt::Result {
        match self {
            Unread::Form(fault) => write!(f, "{}.", plain(&fault.to_string())),
            Unread::Count(count) => write!(f, "it has {count} cases, and one is expected."),
            Unread::Op(op) => {
                write!(f, "its case is of `{}`, and `check` or `pack` is expected.", op.name())
            }
        }
    }
}

impl Error for Unread {}

#[cfg(test)]
mod tests {
    use super::*;

    /// How many cells the small board may take with arrays of these lengths.
    fn most(lent: [usize; 4]) -> Option<usize> {
        Asked { lent: Some(lent), ..Asked::board() }.most()
    }

    #[test]
    fn the_lent_arrays_say_how_many_cells_there_may_be() {
        assert_eq!(Asked::board().most(), Some(65_536));
        assert_eq!(most([64, 64, 64, 7]), Some(64));
        assert_eq!(most([2, 2, 2, 7]), Some(2));
        assert_eq!(most([65_536, 65_536, 65_536, 7]), Some(65_536));
    }

    #[test]
    fn arrays_of_other_lengths_may_take_none() {
        for lent in [[64, 63, 64, 7], [64, 64, 65, 7], [64, 64, 64, 6], [1, 1, 1, 7]] {
            assert_eq!(most(lent), None, "{lent:?}");
        }
        assert_eq!(most([65_537, 65_537, 65_537, 7]), None);
    }
}
