//! What is told of a packed table: the table check, its signatures, and the blanks that nobody signed.

use slettrein::Refusal;

use crate::walk::walk;
use crate::{Astray, Packed};

/// Whether a packed table is sound, its signatures, and what stays blank.
#[derive(Clone, Debug, PartialEq, Eq)]
pub struct Report {
    /// What the table check says.
    pub check: Result<(), Refusal>,
    /// The signed rules, by state.
    pub rules: Vec<SignedRule>,
    /// The signed gotos, by nonterminal.
    pub gotos: Vec<SignedGoto>,
    /// How many cells have a signed rule in Check.
    pub rule_cells: usize,
    /// How many nonterminals A have Check A at cell 2A.
    pub goto_cells: usize,
    /// The states with terminals that nobody has signed for, and these terminals.
    pub blank_actions: Vec<(usize, Vec<usize>)>,
    /// The nonterminals with states for which nobody has signed, and these states.
    pub blank_gotos: Vec<(usize, Vec<usize>)>,
}

/// A rule that is signed for a state.
#[derive(Clone, Debug, PartialEq, Eq)]
pub struct SignedRule {
    pub state: usize,
    pub rule: usize,
    /// The cell in whose Check it stands, which is attached to the state's.
    pub cell: usize,
    /// The terminals whose blanks it fills.
    pub fills: Vec<usize>,
    /// The terminals under which the table has the same rule, which the cells leave to the signature.
    pub repeats: Vec<usize>,
}

/// A state that is signed for a nonterminal.
#[derive(Clone, Debug, PartialEq, Eq)]
pub struct SignedGoto {
    pub nonterminal: usize,
    pub state: usize,
    /// The cell at which it stands.
    pub cell: usize,
    /// The states whose blanks it fills.
    pub fills: Vec<usize>,
    /// The states in whose rows the table has the same state, which the cells leave to the signature.
    pub repeats: Vec<usize>,
}

/// How many signatures of one kind there are, in how many cells, and how many blanks they fill.
#[derive(Clone, Copy, Debug, PartialEq, Eq)]
pub struct Tally {
    pub signed: usize,
    pub cells: usize,
    pub filled: usize,
}

impl Report {
    /// The report on cells that are those of the table and its signing.
    pub fn new(packed: &Packed) -> Result<Report, Astray> {
        walk(packed)?;
        let grammar = packed.table.grammar();
        let states = 0..packed.table.states();
        let nonterminals = grammar.terminals() + 1..grammar.symbols();
        let silent = |state: usize, symbol: usize| packed.filled(state, symbol) == 0;
        let actions = states.clone().map(|s| (s, terminals(packed, |a| silent(s, a))));
        let gotos = nonterminals.clone().map(|a| (a, self::states(packed, |s| silent(s, a))));
        Ok(Report {
            check: packed.table.check(&packed.signing),
            rules: states.filter_map(|state| signed_rule(packed, state)).collect(),
            gotos: nonterminals.clone().filter_map(|a| signed_goto(packed, a)).collect(),
            rule_cells: packed.cells.check().iter().filter(|&&check| check < 0).count(),
            goto_cells: nonterminals.filter(|&a| packed.check(2 * a) == Some(a as i32)).count(),
            blank_actions: actions.filter(|(_, blanks)| !blanks.is_empty()).collect(),
            blank_gotos: gotos.filter(|(_, blanks)| !blanks.is_empty()).collect(),
        })
    }

    /// The signed rules, counted.
    pub fn rule_tally(&self) -> Tally {
        let filled = self.rules.iter().map(|signed| signed.fills.len()).sum();
        Tally { signed: self.rules.len(), cells: self.rule_cells, filled }
    }

    /// The signed gotos, counted.
    pub fn goto_tally(&self) -> Tally {
        let filled = self.gotos.iter().map(|signed| signed.fills.len()).sum();
        Tally { signed: self.gotos.len(), cells: self.goto_cells, filled }
    }

    /// How many blanks nobody has signed for.
    pub fn blanks_left(&self) -> usize {
        let lists = self.blank_actions.iter().chain(&self.blank_gotos);
        lists.map(|(_, blanks)| blanks.len()).sum()
    }

    /// Whether there is no signature at all.
    pub fn is_unsigned(&self) -> bool {
        self.rules.is_empty() && self.gotos.is_empty()
    }
}

/// The signed rule of a state, if it has one.
fn signed_rule(packed: &Packed, state: usize) -> Option<SignedRule> {
    let (rule, cell) = (packed.signing.rule(state)?, packed.place(state)? + 1);
    let fills = terminals(packed, |a| packed.entry(state, a) == 0);
    let repeats = terminals(packed, |a| packed.entry(state, a) == packed.signed(state, a));
    Some(SignedRule { state, rule, cell, fills, repeats })
}

/// The signed state of a nonterminal, if it has one.
fn signed_goto(packed: &Packed, nonterminal: usize) -> Option<SignedGoto> {
    let state = packed.signing.goto(nonterminal)?;
    let cell = packed.place(state)?;
    let fills = states(packed, |s| packed.entry(s, nonterminal) == 0);
    let repeats = states(packed, |s| packed.entry(s, nonterminal) == packed.signed(s, nonterminal));
    Some(SignedGoto { nonterminal, state, cell, fills, repeats })
}

/// The terminals of a table for which something holds.
fn terminals(packed: &Packed, holds: impl Fn(usize) -> bool) -> Vec<usize> {
    (0..packed.table.grammar().terminals()).filter(|&terminal| holds(terminal)).collect()
}

/// The states of a table for which something holds.
fn states(packed: &Packed, holds: impl Fn(usize) -> bool) -> Vec<usize> {
    (0..packed.table.states()).filter(|&state| holds(state)).collect()
}
