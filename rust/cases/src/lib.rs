//! Cases of document 01: their text form, the hand-made edge cases and the random ones.
//!
//! Read in this order: `ask` (what is asked), `answer` (what is said back), `view` and `slot` (the
//! keys of the text form), `read`, `expected` and `write`, then `sheet`, `edges`, `lr` (tables made
//! from a grammar), `random` and `judge_cases`.

#![forbid(unsafe_code)]

mod answer;
mod ask;
pub mod edges;
mod expected;
mod judge_cases;
mod lr;
mod numbers;
pub mod random;
mod read;
mod sheet;
mod slot;
mod view;
mod write;

pub use answer::{Answer, Array};
pub use ask::{Ask, Case, Cells, Counts, Given, Grammar, Op, Run, Signing, Sizes};
pub use judge_cases::{judge_case, judge_cases};
pub use lr::lr_table;
pub use read::{read, Entry, Fault, Reader};
pub use sheet::board;
pub use write::write;
