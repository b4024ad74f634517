//! An asking as it is read: its keys in the order of the form, and the place that each fills.

use crate::ask::{Ask, Cells, Counts, Given, Grammar, Op, Run, Signing, Sizes};
use crate::numbers::parse_list;

/// The place behind a key, to be filled.
pub enum Slot<'a> {
    Sizes(Vec<&'a mut usize>),
    Unsigned(&'a mut Vec<u32>),
    Signed(&'a mut Vec<i32>),
    Bytes(&'a mut Vec<u8>),
}

/// Keys with the places behind them.
type Slots<'a> = Vec<(&'static str, Slot<'a>)>;

impl Slot<'_> {
    /// Fills the place from the text after its key.
    pub fn fill(self, words: Option<&str>) -> Result<(), String> {
        match self {
            Slot::Sizes(places) => return fill_sizes(places, parse_list(words)?),
            Slot::Unsigned(list) => *list = parse_list(words)?,
            Slot::Signed(list) => *list = parse_list(words)?,
            Slot::Bytes(list) => *list = parse_list(words)?,
        }
        Ok(())
    }
}

/// Puts the numbers in the places, of which there must be as many.
fn fill_sizes(places: Vec<&mut usize>, numbers: Vec<usize>) -> Result<(), String> {
    if numbers.len() != places.len() {
        return Err(format!("{} numbers expected, {} found", places.len(), numbers.len()));
    }
    for (place, number) in places.into_iter().zip(numbers) {
        *place = number;
    }
    Ok(())
}

/// An asking of that operation with nothing filled in.
pub fn empty(op: Op) -> Ask {
    let (given, cells, run) = (Given::default(), Cells::default(), Run::default());
    let (counts, grammar) = (Counts::default(), Grammar::default());
    let (sizes, signing) = (Sizes::default(), Signing::default());
    match op {
        Op::Pack => Ask::Pack { given, cells, marks: Vec::new(), place: Vec::new() },
        Op::Read => Ask::Read { counts, cells, x: 0, a: 0 },
        Op::Parse => Ask::Parse { counts, grammar, cells, run },
        Op::Plain => Ask::Plain { given, run },
        Op::Check => Ask::Check { given },
        Op::SheetRead => Ask::SheetRead { sizes, signing, text: Vec::new() },
        Op::SheetWrite => Ask::SheetWrite { sizes, signing, buffer: Vec::new() },
        Op::PackSheet => Ask::PackSheet { text: Vec::new() },
    }
}

/// All keys of an asking after `op`, in the order of the form.
pub fn slots(ask: &mut Ask) -> Slots<'_> {
    let mut list = Vec::new();
    match ask {
        Ask::Pack { given, cells, marks, place } => {
            push_given(&mut list, given);
            push_cells(&mut list, cells);
            list.push(("marks", Slot::Unsigned(marks)));
            list.push(("place", Slot::Unsigned(place)));
        }
        Ask::Read { counts, cells, x, a } => {
            push_counts(&mut list, counts);
            push_cells(&mut list, cells);
            list.push(("at", Slot::Sizes(vec![x, a])));
        }
        Ask::Parse { counts, grammar, cells, run } => {
            push_counts(&mut list, counts);
            push_grammar(&mut list, grammar);
            push_cells(&mut list, cells);
            push_run(&mut list, run);
        }
        Ask::Plain { given, run } => {
            push_given(&mut list, given);
            push_run(&mut list, run);
        }
        Ask::Check { given } => push_given(&mut list, given),
        Ask::SheetRead { sizes, signing, text } => {
            push_sizes(&mut list, sizes);
            push_signing(&mut list, signing);
            list.push(("text", Slot::Bytes(text)));
        }
        Ask::SheetWrite { sizes, signing, buffer } => {
            push_sizes(&mut list, sizes);
            push_signing(&mut list, signing);
            list.push(("buffer", Slot::Bytes(buffer)));
        }
        Ask::PackSheet { text } => list.push(("text", Slot::Bytes(text))),
    }
    list
}

/// The four sizes, on one line.
fn push_sizes<'a>(list: &mut Slots<'a>, sizes: &'a mut Sizes) {
    let Sizes { terminals, symbols, rules, states } = sizes;
    list.push(("dims", Slot::Sizes(vec![terminals, symbols, rules, states])));
}

/// The three sizes of a reader of cells, on one line.
fn push_counts<'a>(list: &mut Slots<'a>, counts: &'a mut Counts) {
    let Counts { terminals, symbols, rules } = counts;
    list.push(("dims", Slot::Sizes(vec![terminals, symbols, rules])));
}

/// The rules.
fn push_grammar<'a>(list: &mut Slots<'a>, grammar: &'a mut Grammar) {
    list.push(("left", Slot::Unsigned(&mut grammar.left)));
    list.push(("lens", Slot::Unsigned(&mut grammar.lens)));
    list.push(("rights", Slot::Unsigned(&mut grammar.rights)));
}

/// The signing.
fn push_signing<'a>(list: &mut Slots<'a>, signing: &'a mut Signing) {
    list.push(("srule", Slot::Unsigned(&mut signing.srule)));
    list.push(("sgoto", Slot::Unsigned(&mut signing.sgoto)));
}

/// Sizes, grammar, table and signing.
fn push_given<'a>(list: &mut Slots<'a>, given: &'a mut Given) {
    push_sizes(list, &mut given.sizes);
    push_grammar(list, &mut given.grammar);
    list.push(("table", Slot::Signed(&mut given.table)));
    push_signing(list, &mut given.signing);
}

/// Base and Check.
fn push_cells<'a>(list: &mut Slots<'a>, cells: &'a mut Cells) {
    list.push(("base", Slot::Signed(&mut cells.base)));
    list.push(("check", Slot::Signed(&mut cells.check)));
}

/// What a parse runs on.
fn push_run<'a>(list: &mut Slots<'a>, run: &'a mut Run) {
    list.push(("tokens", Slot::Unsigned(&mut run.tokens)));
    list.push(("limit", Slot::Sizes(vec![&mut run.limit])));
    list.push(("stack", Slot::Unsigned(&mut run.stack)));
    list.push(("list", Slot::Unsigned(&mut run.list)));
}
