//! Random good grammars and sentences from them.

use super::dice::Dice;
use crate::ask::{Grammar, Sizes};

/// Random T, M and G, mostly small; L is 0 until a table says it.
pub fn sizes(dice: &mut Dice) -> Sizes {
    let small = !dice.chance(5);
    let (most_terminals, most_others, most_rules) = if small { (6, 5, 10) } else { (16, 20, 40) };
    let terminals = dice.within(2, most_terminals);
    let others = dice.within(1, most_others);
    let least = if dice.chance(85) { others + 1 } else { 1 };
    let rules = dice.within(least.min(most_rules), most_rules);
    Sizes { terminals, symbols: terminals + 1 + others, rules, states: 0 }
}

/// A random good grammar in which nearly every nonterminal has a rule, often one of terminals alone.
pub fn grammar(dice: &mut Dice, sizes: &Sizes) -> Grammar {
    let (first, last) = (sizes.terminals + 1, sizes.symbols - 1);
    let start = if dice.chance(70) { first } else { dice.within(first, last) };
    let mut grammar = Grammar::default();
    grammar.push(sizes.terminals, &[start as u32]);
    for rule in 2..=sizes.rules {
        let turn = first + rule - 2;
        let left = if turn <= last { turn } else { dice.within(first, last) };
        let nonterminals = if turn <= last && dice.chance(60) { 0 } else { 45 };
        let right = right_side(dice, sizes, nonterminals);
        grammar.push(left, &right);
    }
    grammar
}

/// A random right side, in which that many of a hundred symbols are nonterminals.
fn right_side(dice: &mut Dice, sizes: &Sizes, nonterminals: usize) -> Vec<u32> {
    let length = *dice.pick(&[0, 1, 1, 1, 1, 2, 2, 2, 2, 3, 3, 4]);
    let mut right = Vec::new();
    for _ in 0..length {
        let symbol = match dice.chance(nonterminals) {
            true => dice.within(sizes.terminals + 1, sizes.symbols - 1),
            false => dice.within(1, sizes.terminals - 1),
        };
        right.push(symbol as u32);
    }
    right
}

/// The tokens of a random leftmost expansion, which turns to short rules and then stops when it grows long.
pub fn sentence(dice: &mut Dice, sizes: &Sizes, grammar: &Grammar) -> Vec<u32> {
    let long = dice.within(4, 40);
    let mut open: Vec<u32> = grammar.right(1).to_vec();
    let mut tokens = Vec::new();
    for step in 0..4 * long {
        let Some(symbol) = open.pop() else { break };
        if (symbol as usize) < sizes.terminals {
            tokens.push(symbol);
            continue;
        }
        if let Some(rule) = expansion(dice, grammar, symbol, step > long) {
            open.extend(grammar.right(rule).iter().rev());
        }
    }
    tokens
}

/// A rule for a nonterminal: any, or one of the shortest.
fn expansion(dice: &mut Dice, grammar: &Grammar, symbol: u32, short: bool) -> Option<usize> {
    let lefts = grammar.left.iter().enumerate();
    let mut rules: Vec<usize> = lefts.filter(|(_, l)| **l == symbol).map(|(k, _)| k + 1).collect();
    if short {
        let least = rules.iter().map(|r| grammar.lens[r - 1]).min()?;
        rules.retain(|r| grammar.lens[r - 1] == least);
    }
    if rules.is_empty() {
        return None;
    }
    Some(*dice.pick(&rules))
}
