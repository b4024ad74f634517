//! The table check against a search over all paths up to a length, on small tables.

mod common;

use cases::{Ask, Given, Op};
use common::base_seed;
use replay::{random_cases, Product, Program};

/// Random cases of the check, of which the small ones are searched.
const COUNT: u64 = 20_000;

/// A table with more paths than this is left out.
const MOST_PATHS: usize = 50_000;

/// A search over paths: the states and the symbols of the one at hand, and the least state and rule that failed so far.
struct Search<'a> {
    given: &'a Given,
    rules: Vec<Vec<usize>>,
    far: usize,
    states: Vec<usize>,
    symbols: Vec<u32>,
    paths: usize,
    least: Option<(u64, u64)>,
}

/// The unsigned entry of a state and a symbol.
fn entry(given: &Given, state: usize, symbol: usize) -> i32 {
    given.table[state * given.sizes.symbols + symbol]
}

/// The rules that the filled row of a state reduces by, accept being rule 1.
fn rules_of(given: &Given, state: usize) -> Vec<usize> {
    let signed = given.signing.srule[state] as usize;
    let rule = |a| match entry(given, state, a) {
        0 if signed > 0 => Some(signed),
        e if e < 0 => Some(e.unsigned_abs() as usize),
        _ => None,
    };
    (0..given.sizes.terminals).filter_map(rule).collect()
}

impl<'a> Search<'a> {
    /// A search from state 0; no fault hides behind a path that is longer than all states and a right side.
    fn new(given: &'a Given) -> Search<'a> {
        let longest = given.grammar.lens.iter().max().map_or(0, |n| *n as usize);
        Search {
            given,
            rules: (0..given.sizes.states).map(|s| rules_of(given, s)).collect(),
            far: given.sizes.states + longest,
            states: vec![0],
            symbols: Vec::new(),
            paths: 0,
            least: None,
        }
    }

    /// Whether the path at hand breaks a condition for a rule of its last state.
    fn fails(&self, rule: usize) -> bool {
        let right = self.given.grammar.right(rule);
        let Some(before) = self.symbols.len().checked_sub(right.len()) else { return true };
        let (start, left) = (self.states[before], self.given.grammar.left[rule - 1] as usize);
        let leads = if rule == 1 { start == 0 } else { entry(self.given, start, left) != 0 };
        self.symbols[before..] != *right || !leads
    }

    /// Looks at the path at hand and at all that go on from it; nothing where there are too many.
    fn walk(&mut self) -> Option<()> {
        self.paths += 1;
        if self.paths > MOST_PATHS {
            return None;
        }
        let state = self.states[self.states.len() - 1];
        for rule in self.rules[state].clone() {
            let named = (state as u64, rule as u64);
            if self.fails(rule) && self.least.is_none_or(|least| named < least) {
                self.least = Some(named);
            }
        }
        if self.symbols.len() == self.far {
            return Some(());
        }
        for symbol in 1..self.given.sizes.symbols {
            let target = entry(self.given, state, symbol);
            if target > 0 {
                self.states.push(target as usize);
                self.symbols.push(symbol as u32);
                self.walk()?;
                self.states.pop();
                self.symbols.pop();
            }
        }
        Some(())
    }
}

#[test]
fn the_check_finds_what_a_search_over_all_paths_finds() {
    let (mut sound, mut unsound) = (0, 0);
    for (seed, case) in random_cases(Op::Check, base_seed(), COUNT) {
        let Ask::Check { given } = &case.ask else { panic!("a case of the check") };
        let answer = Product.answer(&case.ask);
        if !matches!(answer.code, Some(0 | 6)) {
            continue;
        }
        let mut search = Search::new(given);
        if search.walk().is_none() {
            continue;
        }
        let found = (answer.code == Some(6)).then(|| (answer.values[0], answer.values[1]));
        assert_eq!(found, search.least, "seed {seed}");
        sound += usize::from(found.is_none());
        unsound += usize::from(found.is_some());
    }
    assert!(sound > 300 && unsound > 1_000, "{sound} sound, {unsound} unsound");
}
