//! The second program: each asking handed to the crate `second`, with copies of the lent arrays.

use cases::random::Packed;
use cases::{Answer, Array, Ask, Case, Cells, Counts, Given, Grammar, Op, Run, Signing, Sizes};
use second::Said;

use crate::Program;

/// The second program.
pub struct Second;

impl Program for Second {
    /// The answer of the crate's function for the operation.
    fn answer(&self, ask: &Ask) -> Answer {
        match ask {
            Ask::Pack { given, cells, marks, place } => pack(given, cells, marks, place),
            Ask::Read { counts, cells, x, a } => read(counts, cells, *x, *a),
            Ask::Parse { counts, grammar, cells, run } => parse(counts, grammar, cells, run),
            Ask::Plain { given, run } => plain(given, run),
            Ask::Check { given } => check(given),
            Ask::SheetRead { sizes, signing, text } => sheet_read(sizes, signing, text),
            Ask::SheetWrite { sizes, signing, buffer } => sheet_write(sizes, signing, buffer),
            Ask::PackSheet { text } => Answer::printed(second::packsheet(text)),
        }
    }

    /// The answer of the crate's own judgement.
    fn judge(&self, given: &Given) -> Answer {
        let (sizes, grammar) = (lend_sizes(&given.sizes), lend_grammar(&given.grammar));
        let said = second::judge(sizes, grammar, &given.table, lend_signing(&given.signing));
        answer(said, Vec::new())
    }
}

/// The random case of an operation and a seed, with cells that the second program packs.
pub fn random_case(op: Op, seed: u64) -> Case {
    cases::random::random_case(op, seed, &packed)
}

/// The random cases of an operation from a base seed on, with their seeds.
pub fn random_cases(op: Op, base: u64, count: u64) -> impl Iterator<Item = (u64, Case)> {
    let seeds = (0..count).map(move |k| base.wrapping_add(k));
    seeds.map(move |seed| (seed, random_case(op, seed)))
}

/// The example packed into so many cells, or nothing where that is refused.
fn packed(given: &Given, width: usize) -> Option<Packed> {
    let mut cells = Cells { base: vec![0; width], check: vec![0; width] };
    let mut place = vec![0; given.sizes.states];
    let said = pack_into(given, &mut cells, &mut vec![0; width], &mut place);
    match said.code {
        0 => Some(Packed { cells, place, count: said.values[0] as usize }),
        _ => None,
    }
}

/// The sizes as the second program takes them.
fn lend_sizes(sizes: &Sizes) -> second::Sizes {
    let Sizes { terminals, symbols, rules, states } = *sizes;
    second::Sizes { terminals, symbols, rules, states }
}

/// The grammar as the second program takes it.
fn lend_grammar(grammar: &Grammar) -> second::Grammar<'_> {
    let Grammar { left, lens, rights } = grammar;
    second::Grammar { left, lens, rights }
}

/// The signing as the second program takes it.
fn lend_signing(signing: &Signing) -> second::Signing<'_> {
    let Signing { srule, sgoto } = signing;
    second::Signing { srule, sgoto }
}

/// What was said, with the lent arrays after the call.
fn answer(said: Said, arrays: Vec<(&'static str, Array)>) -> Answer {
    Answer { code: Some(said.code), values: said.values, moves: said.moves, arrays }
}

/// Packs into arrays as they stand.
fn pack_into(given: &Given, cells: &mut Cells, marks: &mut [u32], place: &mut [u32]) -> Said {
    second::pack(
        lend_sizes(&given.sizes),
        lend_grammar(&given.grammar),
        &given.table,
        lend_signing(&given.signing),
        &mut cells.base,
        &mut cells.check,
        marks,
        place,
    )
}

/// Packing.
fn pack(given: &Given, cells: &Cells, marks: &[u32], place: &[u32]) -> Answer {
    let (mut cells, mut marks, mut place) = (cells.clone(), marks.to_vec(), place.to_vec());
    let said = pack_into(given, &mut cells, &mut marks, &mut place);
    let arrays = vec![
        ("base", Array::Signed(cells.base)),
        ("check", Array::Signed(cells.check)),
        ("marks", Array::Unsigned(marks)),
        ("place", Array::Unsigned(place)),
    ];
    answer(said, arrays)
}

/// A single read.
fn read(counts: &Counts, cells: &Cells, x: usize, a: usize) -> Answer {
    let Counts { terminals, symbols, rules } = *counts;
    answer(second::read(terminals, symbols, rules, &cells.base, &cells.check, x, a), Vec::new())
}

/// Parsing with cells.
fn parse(counts: &Counts, grammar: &Grammar, cells: &Cells, run: &Run) -> Answer {
    let Counts { terminals, symbols, rules } = *counts;
    let (mut stack, mut list) = (run.stack.clone(), run.list.clone());
    let said = second::parse(
        terminals,
        symbols,
        rules,
        lend_grammar(grammar),
        &cells.base,
        &cells.check,
        &run.tokens,
        run.limit,
        &mut stack,
        &mut list,
    );
    answer(said, vec![("stack", Array::Unsigned(stack)), ("list", Array::Unsigned(list))])
}

/// Parsing with the table.
fn plain(given: &Given, run: &Run) -> Answer {
    let (mut stack, mut list) = (run.stack.clone(), run.list.clone());
    let said = second::plain(
        lend_sizes(&given.sizes),
        lend_grammar(&given.grammar),
        &given.table,
        lend_signing(&given.signing),
        &run.tokens,
        run.limit,
        &mut stack,
        &mut list,
    );
    answer(said, vec![("stack", Array::Unsigned(stack)), ("list", Array::Unsigned(list))])
}

/// The table check.
fn check(given: &Given) -> Answer {
    let (sizes, grammar) = (lend_sizes(&given.sizes), lend_grammar(&given.grammar));
    answer(second::check(sizes, grammar, &given.table, lend_signing(&given.signing)), Vec::new())
}

/// Reading a sheet.
fn sheet_read(sizes: &Sizes, signing: &Signing, text: &[u8]) -> Answer {
    let (mut srule, mut sgoto) = (signing.srule.clone(), signing.sgoto.clone());
    let said = second::sheet_read(lend_sizes(sizes), text, &mut srule, &mut sgoto);
    answer(said, vec![("srule", Array::Unsigned(srule)), ("sgoto", Array::Unsigned(sgoto))])
}

/// Writing a sheet.
fn sheet_write(sizes: &Sizes, signing: &Signing, buffer: &[u8]) -> Answer {
    let mut buffer = buffer.to_vec();
    let said = second::sheet_write(lend_sizes(sizes), lend_signing(signing), &mut buffer);
    answer(said, vec![("buffer", Array::Bytes(buffer))])
}
