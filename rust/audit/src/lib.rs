//! The audit of a packed table: each signature, the cell where it stands, and the blanks that it fills.
//!
//! Read in this order: `asked` (the table of a file), `given` and `packed` (what is audited), `walk`
//! (the cells are those of the table and its signing), `report` (what is told), `kind` (what each
//! cell is), then `words`, `text`, and `page` with `grid` (how it is told).

#![forbid(unsafe_code)]

mod asked;
mod given;
mod grid;
mod kind;
mod packed;
mod page;
mod report;
mod text;
mod walk;
mod words;

pub use asked::{Asked, Unread};
pub use given::signed;
pub use packed::Packed;
pub use page::page;
pub use report::{Report, SignedGoto, SignedRule, Tally};
pub use text::text;
pub use walk::Astray;
pub use words::refused;
