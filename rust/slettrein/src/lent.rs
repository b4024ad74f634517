//! The operations on numbers and lent slices: answers are document 01's numbers with their values.

use crate::border;

/// T, M, G and L: how many terminals, symbols, rules and states there are.
#[derive(Clone, Copy, Debug)]
pub struct Sizes {
    pub terminals: usize,
    pub symbols: usize,
    pub rules: usize,
    pub states: usize,
}

/// The left side of each rule, the length of each right side, and all right sides one after the other.
#[derive(Clone, Copy, Debug)]
pub struct Grammar<'a> {
    pub left: &'a [u32],
    pub lens: &'a [u32],
    pub rights: &'a [u32],
}

/// The signed rule of each state and the signed state of each nonterminal, 0 for none.
#[derive(Clone, Copy, Debug)]
pub struct Signing<'a> {
    pub srule: &'a [u32],
    pub sgoto: &'a [u32],
}

/// T, M and G, which are all that is stated where cells are read.
#[derive(Clone, Copy, Debug)]
pub struct Counts {
    pub terminals: usize,
    pub symbols: usize,
    pub rules: usize,
}

/// The arrays Base and Check.
#[derive(Clone, Copy, Debug)]
pub struct Cells<'a> {
    pub base: &'a [i32],
    pub check: &'a [i32],
}

/// The arrays that packing fills: Base, Check, and a mark for each taken cell.
#[derive(Debug)]
pub struct CellsMut<'a> {
    pub base: &'a mut [i32],
    pub check: &'a mut [i32],
    pub marks: &'a mut [u32],
}

/// What a parse runs on: the tokens, the move limit, and the stack and the list that are lent.
#[derive(Debug)]
pub struct Run<'a> {
    pub tokens: &'a [u32],
    pub limit: usize,
    pub stack: &'a mut [u32],
    pub list: &'a mut [u32],
}

/// The number of an answer and the values that come with it.
#[derive(Clone, Debug, PartialEq, Eq)]
pub struct Said {
    pub number: u32,
    pub values: Vec<u64>,
}

/// The judgement of grammar, table and signing: OK, SIZE, GRAMMAR, ENTRY or SIGN.
///
/// ```
/// use slettrein::lent::{judge, Grammar, Said, Signing, Sizes};
/// // S' -> S, S -> a: one terminal beside the end mark, state 1 after `a`, state 2 after `S`.
/// let sizes = Sizes { terminals: 2, symbols: 4, rules: 2, states: 3 };
/// let grammar = Grammar { left: &[2, 3], lens: &[1, 1], rights: &[3, 1] };
/// let table = [0, 1, 0, 2, -2, 0, 0, 0, -1, 0, 0, 0];
/// let signing = Signing { srule: &[0, 0, 0], sgoto: &[0, 0] };
/// assert_eq!(judge(sizes, grammar, &table, signing), Said { number: 0, values: vec![] });
/// let signed = Signing { srule: &[0, 3, 0], sgoto: &[0, 0] };
/// assert_eq!(judge(sizes, grammar, &table, signed), Said { number: 4, values: vec![0, 1] });
/// ```
pub fn judge(sizes: Sizes, grammar: Grammar, table: &[i32], signing: Signing) -> Said {
    said(border::judge(
        sizes.words(),
        [grammar.left, grammar.lens, grammar.rights],
        table,
        [signing.srule, signing.sgoto],
    ))
}

/// The table check: OK, UNSOUND, or SIZE, GRAMMAR, ENTRY or SIGN.
pub fn check(sizes: Sizes, grammar: Grammar, table: &[i32], signing: Signing) -> Said {
    said(border::check(
        sizes.words(),
        [grammar.left, grammar.lens, grammar.rights],
        table,
        [signing.srule, signing.sgoto],
    ))
}

/// Packs into the four lent arrays: OK with the count of cells, or SIZE, GRAMMAR, ENTRY, SIGN or NOROOM.
///
/// Base, Check and marks have W elements each, the place list has an element for each state.
pub fn pack(
    sizes: Sizes,
    grammar: Grammar,
    table: &[i32],
    signing: Signing,
    cells: CellsMut,
    place: &mut [u32],
) -> Said {
    said(border::pack(
        sizes.words(),
        [grammar.left, grammar.lens, grammar.rights],
        table,
        [signing.srule, signing.sgoto],
        [cells.base, cells.check],
        [cells.marks, place],
    ))
}

/// Reads symbol `a` at the state at cell `x`: OK with what the read answers, SIZE or BADCELL.
///
/// The values of OK are 0 and a cell for a direct shift, 1 and a cell for a shift through a
/// pointer, 2 and a rule for a reduction, 3 for accept, and 4 for blank.
pub fn read(counts: Counts, cells: Cells, x: usize, a: usize) -> Said {
    let numbers = [counts.terminals, counts.symbols, counts.rules].map(word);
    said(border::read(numbers, [cells.base, cells.check], x, word(a)))
}

/// Parses the tokens with the filled table, in so many moves at most: OK with the counts of
/// reductions and moves, or a refusal; the count of moves comes beside it.
///
/// The list holds the reductions made, then 0.
pub fn plain(
    sizes: Sizes,
    grammar: Grammar,
    table: &[i32],
    signing: Signing,
    run: Run,
) -> (Said, u64) {
    let words = border::plain(
        sizes.words(),
        [grammar.left, grammar.lens, grammar.rights],
        table,
        [signing.srule, signing.sgoto],
        run.tokens,
        word(run.limit),
        [run.stack, run.list],
    );
    parsed(words)
}

/// Parses the tokens with cells, as [`plain`] does with the table; damaged cells are BADCELL.
pub fn parse(counts: Counts, grammar: Grammar, cells: Cells, run: Run) -> (Said, u64) {
    let words = border::parse(
        [counts.terminals, counts.symbols, counts.rules].map(word),
        [grammar.left, grammar.lens, grammar.rights],
        [cells.base, cells.check],
        run.tokens,
        word(run.limit),
        [run.stack, run.list],
    );
    parsed(words)
}

/// Reads a signing sheet into the lent signing: OK with the length of the text, SIZE, LINE or SIGN.
pub fn sheet_read(sizes: Sizes, text: &[u8], srule: &mut [u32], sgoto: &mut [u32]) -> Said {
    said(border::sheet_read(sizes.words(), text, [srule, sgoto]))
}

/// Writes a signing sheet into the lent buffer: OK with the length of the text, SIZE, SIGN or TEXT.
///
/// The bytes of the buffer after the text stay as they are.
pub fn sheet_write(sizes: Sizes, signing: Signing, buffer: &mut [u8]) -> Said {
    said(border::sheet_write(sizes.words(), [signing.srule, signing.sgoto], buffer))
}

/// What the program `packsheet` prints for an input, as far as `out` holds it; the answer is the length of all of it.
///
/// No text is longer than 2,048 bytes.
pub fn packsheet(text: &[u8], out: &mut [u8]) -> usize {
    border::packsheet(text, out)
}

/// Puts the house notation into the lent arrays: OK, or SIZE and nothing changed.
///
/// `left` and `lens` have 16 elements, `rights` 40 and `table` 980: 18 terminals, 28 symbols, 16
/// rules and 35 states.
pub fn house(left: &mut [u32], lens: &mut [u32], rights: &mut [u32], table: &mut [i32]) -> Said {
    said(border::house([left, lens, rights], table))
}

impl Sizes {
    /// The numbers as the archive takes them.
    fn words(self) -> [u32; 4] {
        [self.terminals, self.symbols, self.rules, self.states].map(word)
    }
}

/// A number as the archive takes it: one that is too large for it is far beyond every bound, and stays so.
pub(crate) fn word(n: usize) -> u32 {
    u32::try_from(n).unwrap_or(u32::MAX)
}

/// An answer with as many values as it has.
fn said(words: border::Words) -> Said {
    let values = [words.first as u64, words.second as u64];
    Said { number: words.number, values: values[..words.count as usize].to_vec() }
}

/// An answer and the count of moves.
fn parsed(words: border::ParseWords) -> (Said, u64) {
    let border::ParseWords { number, count, first, second, moves } = words;
    (said(border::Words { number, count, first, second }), u64::from(moves))
}
