//! Random tokens derived from a grammar.

use cases::{Given, Grammar};

use crate::numbers::Numbers;

/// The rules of each nonterminal.
fn rules_of(given: &Given) -> Vec<Vec<usize>> {
    let mut rules = vec![Vec::new(); given.sizes.symbols];
    for (k, left) in given.grammar.left.iter().enumerate() {
        rules[*left as usize].push(k + 1);
    }
    rules
}

/// Tokens derived from a symbol, each nonterminal by any of its rules.
fn derived(
    grammar: &Grammar,
    rules: &[Vec<usize>],
    numbers: &mut Numbers,
    symbol: u32,
) -> Vec<u32> {
    let mut tokens = Vec::new();
    let mut open = vec![symbol];
    while let Some(symbol) = open.pop() {
        match &rules[symbol as usize][..] {
            [] => tokens.push(symbol),
            own => {
                let rule = own[numbers.below(own.len())];
                open.extend(grammar.right(rule).iter().rev());
            }
        }
    }
    tokens
}

/// Entries derived from a nonterminal, one after the other, up to so many tokens.
pub fn tokens(given: &Given, entry: u32, most: usize) -> Vec<u32> {
    let rules = rules_of(given);
    let mut numbers = Numbers::new(7);
    let mut tokens = Vec::new();
    loop {
        let more = derived(&given.grammar, &rules, &mut numbers, entry);
        if tokens.len() + more.len() > most {
            return tokens;
        }
        tokens.extend(more);
    }
}
