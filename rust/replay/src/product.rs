//! The product.

use cases::{Answer, Array, Ask, Cells, Counts, Given, Grammar, Run, Signing, Sizes};
use slettrein::lent::{self, Said};

use crate::Program;

/// The product.
pub struct Product;

impl Program for Product {
    /// The answer of the exported function for the operation.
    fn answer(&self, ask: &Ask) -> Answer {
        match ask {
            Ask::Pack { given, cells, marks, place } => pack(given, cells, marks, place),
            Ask::Read { counts, cells, x, a } => read(counts, cells, *x, *a),
            Ask::Plain { given, run } => plain(given, run),
            Ask::Parse { counts, grammar, cells, run } => parse(counts, grammar, cells, run),
            Ask::Check { given } => check(given),
            Ask::SheetRead { sizes, signing, text } => sheet_read(sizes, signing, text),
            Ask::SheetWrite { sizes, signing, buffer } => sheet_write(sizes, signing, buffer),
            Ask::PackSheet { text } => packsheet(text),
        }
    }

    /// The answer of the exported judgement.
    fn judge(&self, given: &Given) -> Answer {
        let (sizes, grammar) = (lend_sizes(&given.sizes), lend_grammar(&given.grammar));
        let said = lent::judge(sizes, grammar, &given.table, lend_signing(&given.signing));
        answer(said, Vec::new())
    }
}

/// The sizes as the product takes them.
fn lend_sizes(sizes: &Sizes) -> lent::Sizes {
    let Sizes { terminals, symbols, rules, states } = *sizes;
    lent::Sizes { terminals, symbols, rules, states }
}

/// The grammar as the product takes it.
fn lend_grammar(grammar: &Grammar) -> lent::Grammar<'_> {
    let Grammar { left, lens, rights } = grammar;
    lent::Grammar { left, lens, rights }
}

/// The signing as the product takes it.
fn lend_signing(signing: &Signing) -> lent::Signing<'_> {
    let Signing { srule, sgoto } = signing;
    lent::Signing { srule, sgoto }
}

/// What was said, with the lent arrays after the call.
fn answer(said: Said, arrays: Vec<(&'static str, Array)>) -> Answer {
    Answer { code: Some(said.number), values: said.values, moves: None, arrays }
}

/// Packing.
fn pack(given: &Given, cells: &Cells, marks: &[u32], place: &[u32]) -> Answer {
    let (mut cells, mut marks, mut place) = (cells.clone(), marks.to_vec(), place.to_vec());
    let said = lent::pack(
        lend_sizes(&given.sizes),
        lend_grammar(&given.grammar),
        &given.table,
        lend_signing(&given.signing),
        lent::CellsMut { base: &mut cells.base, check: &mut cells.check, marks: &mut marks },
        &mut place,
    );
    let arrays = vec![
        ("base", Array::Signed(cells.base)),
        ("check", Array::Signed(cells.check)),
        ("marks", Array::Unsigned(marks)),
        ("place", Array::Unsigned(place)),
    ];
    answer(said, arrays)
}

/// T, M and G as the product takes them.
fn lend_counts(counts: &Counts) -> lent::Counts {
    let Counts { terminals, symbols, rules } = *counts;
    lent::Counts { terminals, symbols, rules }
}

/// The cells as the product takes them.
fn lend_cells(cells: &Cells) -> lent::Cells<'_> {
    lent::Cells { base: &cells.base, check: &cells.check }
}

/// A single read.
fn read(counts: &Counts, cells: &Cells, x: usize, a: usize) -> Answer {
    answer(lent::read(lend_counts(counts), lend_cells(cells), x, a), Vec::new())
}

/// Parses by `call`, with copies of the stack and the list; the count of moves is told past the numbers 1 to 4.
fn parsed(run: &Run, call: impl FnOnce(lent::Run) -> (Said, u64)) -> Answer {
    let (mut stack, mut list) = (run.stack.clone(), run.list.clone());
    let (tokens, limit) = (&run.tokens[..], run.limit);
    let (said, moves) = call(lent::Run { tokens, limit, stack: &mut stack, list: &mut list });
    let told = said.number == 0 || said.number > 4;
    let arrays = vec![("stack", Array::Unsigned(stack)), ("list", Array::Unsigned(list))];
    Answer { moves: told.then_some(moves), ..answer(said, arrays) }
}

/// Parsing with cells.
fn parse(counts: &Counts, grammar: &Grammar, cells: &Cells, run: &Run) -> Answer {
    let (counts, grammar, cells) = (lend_counts(counts), lend_grammar(grammar), lend_cells(cells));
    parsed(run, |lent| lent::parse(counts, grammar, cells, lent))
}

/// Parsing with the table.
fn plain(given: &Given, run: &Run) -> Answer {
    let (sizes, grammar) = (lend_sizes(&given.sizes), lend_grammar(&given.grammar));
    let signing = lend_signing(&given.signing);
    parsed(run, |lent| lent::plain(sizes, grammar, &given.table, signing, lent))
}

/// The table check.
fn check(given: &Given) -> Answer {
    let (sizes, grammar) = (lend_sizes(&given.sizes), lend_grammar(&given.grammar));
    answer(lent::check(sizes, grammar, &given.table, lend_signing(&given.signing)), Vec::new())
}

/// Reading a sheet.
fn sheet_read(sizes: &Sizes, signing: &Signing, text: &[u8]) -> Answer {
    let (mut srule, mut sgoto) = (signing.srule.clone(), signing.sgoto.clone());
    let said = lent::sheet_read(lend_sizes(sizes), text, &mut srule, &mut sgoto);
    answer(said, vec![("srule", Array::Unsigned(srule)), ("sgoto", Array::Unsigned(sgoto))])
}

/// Writing a sheet.
fn sheet_write(sizes: &Sizes, signing: &Signing, buffer: &[u8]) -> Answer {
    let mut buffer = buffer.to_vec();
    let said = lent::sheet_write(lend_sizes(sizes), lend_signing(signing), &mut buffer);
    answer(said, vec![("buffer", Array::Bytes(buffer))])
}

/// What packsheet prints.
fn packsheet(text: &[u8]) -> Answer {
    let mut out = vec![0; 2_048];
    let length = lent::packsheet(text, &mut out);
    assert!(length <= out.len(), "no text is longer");
    out.truncate(length);
    Answer::printed(out)
}
