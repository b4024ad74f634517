//! An asking as it is written: its keys in the order of the form, and what stands behind each.

use crate::ask::{Ask, Cells, Counts, Given, Grammar, Run, Signing, Sizes};
use crate::numbers::push_line;

/// What stands behind a key, to be written.
pub enum View<'a> {
    Sizes(Vec<usize>),
    Unsigned(&'a [u32]),
    Signed(&'a [i32]),
    Bytes(&'a [u8]),
}

/// Keys with what stands behind them.
type Views<'a> = Vec<(&'static str, View<'a>)>;

impl View<'_> {
    /// Writes the key's line.
    pub fn push(&self, out: &mut String, key: &str) {
        match self {
            View::Sizes(numbers) => push_line(out, key, numbers),
            View::Unsigned(numbers) => push_line(out, key, numbers),
            View::Signed(numbers) => push_line(out, key, numbers),
            View::Bytes(numbers) => push_line(out, key, numbers),
        }
    }
}

/// All keys of an asking after `op`, in the order of the form.
pub fn views(ask: &Ask) -> Views<'_> {
    let mut list = Vec::new();
    match ask {
        Ask::Pack { given, cells, marks, place } => {
            push_given(&mut list, given);
            push_cells(&mut list, cells);
            list.push(("marks", View::Unsigned(marks)));
            list.push(("place", View::Unsigned(place)));
        }
        Ask::Read { counts, cells, x, a } => {
            push_counts(&mut list, counts);
            push_cells(&mut list, cells);
            list.push(("at", View::Sizes(vec![*x, *a])));
        }
        Ask::Parse { counts, grammar, cells, run } => {
            push_counts(&mut list, counts);
            push_grammar(&mut list, grammar);
            push_cells(&mut list, cells);
            push_run(&mut list, run);
        }
        Ask::Plain { given, run } => {
            push_given(&mut list, given);
            push_run(&mut list, run);
        }
        Ask::Check { given } => push_given(&mut list, given),
        Ask::SheetRead { sizes, signing, text } => {
            push_sizes(&mut list, sizes);
            push_signing(&mut list, signing);
            list.push(("text", View::Bytes(text)));
        }
        Ask::SheetWrite { sizes, signing, buffer } => {
            push_sizes(&mut list, sizes);
            push_signing(&mut list, signing);
            list.push(("buffer", View::Bytes(buffer)));
        }
        Ask::PackSheet { text } => list.push(("text", View::Bytes(text))),
    }
    list
}

/// The four sizes as one line.
fn push_sizes(list: &mut Views<'_>, sizes: &Sizes) {
    let Sizes { terminals, symbols, rules, states } = *sizes;
    list.push(("dims", View::Sizes(vec![terminals, symbols, rules, states])));
}

/// The three sizes of a reader of cells as one line.
fn push_counts(list: &mut Views<'_>, counts: &Counts) {
    let Counts { terminals, symbols, rules } = *counts;
    list.push(("dims", View::Sizes(vec![terminals, symbols, rules])));
}

/// The rules.
fn push_grammar<'a>(list: &mut Views<'a>, grammar: &'a Grammar) {
    list.push(("left", View::Unsigned(&grammar.left)));
    list.push(("lens", View::Unsigned(&grammar.lens)));
    list.push(("rights", View::Unsigned(&grammar.rights)));
}

/// The signing.
fn push_signing<'a>(list: &mut Views<'a>, signing: &'a Signing) {
    list.push(("srule", View::Unsigned(&signing.srule)));
    list.push(("sgoto", View::Unsigned(&signing.sgoto)));
}

/// Sizes, grammar, table and signing.
fn push_given<'a>(list: &mut Views<'a>, given: &'a Given) {
    push_sizes(list, &given.sizes);
    push_grammar(list, &given.grammar);
    list.push(("table", View::Signed(&given.table)));
    push_signing(list, &given.signing);
}

/// Base and Check.
fn push_cells<'a>(list: &mut Views<'a>, cells: &'a Cells) {
    list.push(("base", View::Signed(&cells.base)));
    list.push(("check", View::Signed(&cells.check)));
}

/// What a parse runs on.
fn push_run<'a>(list: &mut Views<'a>, run: &'a Run) {
    list.push(("tokens", View::Unsigned(&run.tokens)));
    list.push(("limit", View::Sizes(vec![run.limit])));
    list.push(("stack", View::Unsigned(&run.stack)));
    list.push(("list", View::Unsigned(&run.list)));
}
