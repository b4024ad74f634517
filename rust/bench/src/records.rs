//! A record language: entries of some kinds, each kind with its own keyword and its own nested lists.
//!
//!     Book  -> Book Entry | Entry
//!     Entry -> Kind, for each kind
//!     Kind  -> keyword EQUALS Items SEMI
//!     Items -> Items COMMA Atom | Atom
//!     Atom  -> NUMBER | NAME | LEFT Items RIGHT

use cases::{lr_table, Given, Grammar, Signing, Sizes};

const EQUALS: u32 = 1;
const SEMI: u32 = 2;
const COMMA: u32 = 3;
const NUMBER: u32 = 4;
const NAME: u32 = 5;
const LEFT: u32 = 6;
const RIGHT: u32 = 7;

/// The terminals that all kinds share; the keywords come after them.
const SHARED: usize = 8;

/// As many states as document 01 allows.
const MOST_STATES: usize = 1_024;

/// The numbers of a kind's own symbols.
struct Kind {
    keyword: u32,
    kind: u32,
    items: u32,
    atom: u32,
}

impl Kind {
    /// The symbols of kind `number` of so many: its nonterminals come after the start symbol, Book and Entry.
    fn new(kinds: usize, number: usize) -> Kind {
        let own = (SHARED + kinds + 3 + 3 * number) as u32;
        Kind { keyword: (SHARED + number) as u32, kind: own, items: own + 1, atom: own + 2 }
    }

    /// Adds the rules of the kind.
    fn put(&self, grammar: &mut Grammar, entry: usize) {
        let Kind { keyword, kind, items, atom } = *self;
        grammar.push(entry, &[kind]);
        grammar.push(kind as usize, &[keyword, EQUALS, items, SEMI]);
        grammar.push(items as usize, &[items, COMMA, atom]);
        grammar.push(items as usize, &[atom]);
        grammar.push(atom as usize, &[NUMBER]);
        grammar.push(atom as usize, &[NAME]);
        grammar.push(atom as usize, &[LEFT, items, RIGHT]);
    }
}

/// The record language of so many kinds, signed as one signs what a generator gives; nothing if it is out of bounds.
pub fn records(kinds: usize) -> Option<Given> {
    let (start, book, entry) = (SHARED + kinds, SHARED + kinds + 1, SHARED + kinds + 2);
    let mut grammar = Grammar::default();
    grammar.push(start, &[book as u32]);
    grammar.push(book, &[book as u32, entry as u32]);
    grammar.push(book, &[entry as u32]);
    for number in 0..kinds {
        Kind::new(kinds, number).put(&mut grammar, entry);
    }
    let (symbols, rules) = (entry + 1 + 3 * kinds, grammar.left.len());
    let mut sizes = Sizes { terminals: start, symbols, rules, states: 0 };
    let table = lr_table(&sizes, &grammar, MOST_STATES, false)?;
    sizes.states = table.len() / symbols;
    let signing = signed(&sizes, &table);
    Some(Given { sizes, grammar, table, signing })
}

/// The nonterminal of one entry.
pub fn entry(given: &Given) -> u32 {
    given.sizes.terminals as u32 + 2
}

/// Signs the one rule that a state reduces by, and for each nonterminal the state that most rows go to.
fn signed(sizes: &Sizes, table: &[i32]) -> Signing {
    let Sizes { terminals, symbols, .. } = *sizes;
    let srule = table.chunks(symbols).map(|row| one_rule(&row[..terminals])).collect();
    let mut sgoto = vec![0; symbols - terminals];
    for symbol in terminals + 1..symbols {
        let state = commonest(table.iter().skip(symbol).step_by(symbols), sizes.states);
        if !sgoto.contains(&state) {
            sgoto[symbol - terminals] = state;
        }
    }
    Signing { srule, sgoto }
}

/// The rule above 1 that is the only one in a row, or 0.
fn one_rule(actions: &[i32]) -> u32 {
    let mut rules: Vec<u32> =
        actions.iter().filter(|e| **e < 0).map(|e| e.unsigned_abs()).collect();
    rules.dedup();
    match rules[..] {
        [rule] if rule > 1 => rule,
        _ => 0,
    }
}

/// The least of the states that stand in a column most often, or 0 where none does.
fn commonest<'a>(column: impl Iterator<Item = &'a i32>, states: usize) -> u32 {
    let mut counts = vec![0; states];
    for state in column.filter(|e| **e > 0) {
        counts[*state as usize] += 1;
    }
    let most = counts.iter().max().copied().unwrap_or(0);
    let found = counts.iter().position(|count| most > 0 && *count == most);
    found.unwrap_or(0) as u32
}
