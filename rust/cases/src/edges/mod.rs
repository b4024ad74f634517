//! Cases at the edges of document 01's bounds and one past them, with answers worked out by hand.

mod bounds;
mod entries;
mod example;
mod grammars;
mod lengths;
mod reads;
mod runs;
mod sheets;
mod widths;

pub use example::packed_by_hand;

use crate::ask::{Ask, Case};

/// A case with the number and the values that document 01 gives for it.
pub type Edge = (Case, u32, Vec<u64>);

/// The edges of one kind, as they are written down.
struct Edges {
    list: Vec<Edge>,
}

impl Edges {
    /// Writes down a case with its answer.
    fn put(&mut self, name: impl AsRef<str>, ask: Ask, code: u32, values: &[u64]) {
        let name = format!("{}-{}", ask.op().name(), name.as_ref());
        self.list.push((Case { name, ask }, code, values.to_vec()));
    }
}

/// Every edge case.
pub fn edges() -> Vec<Edge> {
    let mut edges = Edges { list: Vec::new() };
    bounds::put(&mut edges);
    lengths::put(&mut edges);
    widths::put(&mut edges);
    grammars::put(&mut edges);
    entries::put(&mut edges);
    reads::put(&mut edges);
    runs::put(&mut edges);
    sheets::put(&mut edges);
    edges.list
}
