//! LR tables from a grammar: the automaton of LR(0) items with the reductions of SLR(1).

use crate::ask::{Grammar, Sizes};

/// A rule and how many symbols of its right side have been passed.
type Item = (usize, usize);

/// For each symbol whether it can be empty, and as bits the terminals that can begin or follow it.
#[derive(Clone, PartialEq)]
struct Sets {
    empty: Vec<bool>,
    first: Vec<u128>,
    follow: Vec<u128>,
}

/// As many terminals have a bit in a set.
const MOST_TERMINALS: usize = u128::BITS as usize;

/// The table of a good grammar, or nothing if it has more than 128 terminals or `most` states; L is not looked at.
///
/// A shift wins over a reduction and a lower rule over a higher one. Reductions stand under the
/// terminals that can follow, or under all of them if so asked.
pub fn lr_table(sizes: &Sizes, grammar: &Grammar, most: usize, all: bool) -> Option<Vec<i32>> {
    if sizes.terminals > MOST_TERMINALS {
        return None;
    }
    let follow = sets(sizes, grammar).follow;
    let mut kernels: Vec<Vec<Item>> = vec![vec![(1, 0)]];
    let mut table = Vec::new();
    let mut state = 0;
    while state < kernels.len() {
        let items = closure(grammar, &kernels[state]);
        let mut row = vec![0; sizes.symbols];
        for (a, entry) in row.iter_mut().enumerate() {
            let kernel = passed(grammar, &items, a as u32);
            if !kernel.is_empty() {
                *entry = number(&mut kernels, kernel) as i32;
            }
        }
        for &(rule, _) in items.iter().filter(|(r, k)| *k == grammar.right(*r).len()) {
            let under =
                if all && rule > 1 { u128::MAX } else { follow[grammar.left[rule - 1] as usize] };
            reduce(&mut row[..sizes.terminals], rule, under);
        }
        table.extend(row);
        state += 1;
        if kernels.len() > most {
            return None;
        }
    }
    Some(table)
}

/// Writes a reduction in the blank entries of a row under the given terminals.
fn reduce(row: &mut [i32], rule: usize, under: u128) {
    for (a, entry) in row.iter_mut().enumerate() {
        if *entry == 0 && under >> a & 1 == 1 {
            *entry = -(rule as i32);
        }
    }
}

/// All items of a state, in order.
fn closure(grammar: &Grammar, kernel: &[Item]) -> Vec<Item> {
    let mut items = kernel.to_vec();
    let mut next = 0;
    while next < items.len() {
        let (rule, passed) = items[next];
        if let Some(symbol) = grammar.right(rule).get(passed) {
            for (k, left) in grammar.left.iter().enumerate() {
                if left == symbol && !items.contains(&(k + 1, 0)) {
                    items.push((k + 1, 0));
                }
            }
        }
        next += 1;
    }
    items.sort_unstable();
    items
}

/// The items of a state that pass over a symbol.
fn passed(grammar: &Grammar, items: &[Item], symbol: u32) -> Vec<Item> {
    let over = items.iter().filter(|(r, k)| grammar.right(*r).get(*k) == Some(&symbol));
    over.map(|(r, k)| (*r, k + 1)).collect()
}

/// The number of the state with this kernel, which is added if it is new.
fn number(kernels: &mut Vec<Vec<Item>>, kernel: Vec<Item>) -> usize {
    if let Some(found) = kernels.iter().position(|k| *k == kernel) {
        return found;
    }
    kernels.push(kernel);
    kernels.len() - 1
}

/// The least sets that the rules ask for.
fn sets(sizes: &Sizes, grammar: &Grammar) -> Sets {
    let none = vec![0; sizes.symbols];
    let mut sets = Sets { empty: vec![false; sizes.symbols], first: none.clone(), follow: none };
    for a in 0..sizes.terminals {
        sets.first[a] = 1 << a;
    }
    sets.follow[sizes.terminals] = 1;
    loop {
        let before = sets.clone();
        for rule in 1..=sizes.rules {
            sets.add(grammar.left[rule - 1] as usize, grammar.right(rule));
        }
        if sets == before {
            return sets;
        }
    }
}

impl Sets {
    /// Adds what one rule asks for, as far as the sets say it by now.
    fn add(&mut self, left: usize, right: &[u32]) {
        let solid = right.iter().position(|x| !self.empty[*x as usize]);
        self.empty[left] |= solid.is_none();
        for x in &right[..solid.map_or(right.len(), |k| k + 1)] {
            self.first[left] |= self.first[*x as usize];
        }
        let mut after = self.follow[left];
        for x in right.iter().rev().map(|x| *x as usize) {
            self.follow[x] |= after;
            after = if self.empty[x] { after | self.first[x] } else { self.first[x] };
        }
    }
}
