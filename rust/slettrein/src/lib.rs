//! Slettrein: LR tables packed into a double array, every default signed by somebody; safe Rust over proved archives.
//!
//! A [`Table`] is a [`Grammar`] with its entries, judged once. A [`Signing`] says which blanks of it
//! are filled, and with what. Packed, they are [`Cells`], which parse:
//!
//! ```
//! use slettrein::{Grammar, Table};
//!
//! // 0 is the end mark and 1 is `a`; 2 is the start symbol and 3 is S. Rule 1 is S' -> S, rule 2 S -> a.
//! let grammar = Grammar::new(2, 4).rule(2, &[3]).rule(3, &[1]);
//! #[rustfmt::skip]
//! let entries = vec![
//!      0, 1, 0, 2, // state 0 shifts `a` to state 1 and goes to state 2 on S
//!     -2, 0, 0, 0, // state 1 reduces by rule 2 at the end
//!     -1, 0, 0, 0, // state 2 accepts at the end
//! ];
//! let table = Table::new(grammar, entries)?;
//! table.check(&table.unsigned())?;
//! let cells = table.pack(&table.unsigned())?;
//! let parse = cells.parse(&[1])?;
//! assert_eq!((parse.reductions, parse.moves), (vec![2, 1], 3));
//!
//! let stopped = cells.parse(&[1, 1]).expect_err("S is one `a`");
//! assert_eq!(stopped.refusal.number(), 8);
//! # Ok::<(), Box<dyn std::error::Error>>(())
//! ```
//!
//! What is not done is said by a [`Refusal`], which has document 01's name, number and values.
//! The buffers that document 01 asks its callers for are the crate's own. Where a caller wants to
//! lend its own, the module [`lent`] has the same operations on numbers and slices.
#![deny(unsafe_code)]

#[allow(unsafe_code)]
mod border;
mod cells;
mod grammar;
pub mod house;
pub mod lent;
mod parse;
mod refusal;
mod sentence;
mod sheet;
mod signing;
mod table;

pub use cells::{Cells, Read, Way};
pub use grammar::Grammar;
pub use parse::{Parse, Room, Stopped};
pub use refusal::{Refusal, Signed};
pub use signing::Signing;
pub use table::{Table, MOST_CELLS};
