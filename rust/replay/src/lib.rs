//! Runs cases through the product or through the independent second program.
//!
//! `Program` is what both are to a case; `Product` and `Second` call them; `random_case` makes
//! random cases with the second program's packed cells.

#![forbid(unsafe_code)]

mod product;
mod second_program;

pub use product::Product;
pub use second_program::{random_case, random_cases, Second};

use cases::{Answer, Ask, Given};

/// A program that answers what document 01 asks for.
pub trait Program {
    /// The answer to an asking, which is none if the program does not have the operation.
    fn answer(&self, ask: &Ask) -> Answer;

    /// The judgement of grammar, table and signing that every operation over a table begins with.
    fn judge(&self, given: &Given) -> Answer;
}
