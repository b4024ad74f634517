//! The table check: every reduction fits every path of edges that leads to its state.

use crate::judge::judge_given;
use crate::said::{Said, OK, UNSOUND};
use crate::{Given, Grammar, Signing, Sizes};

/// Checks a signed table: OK, UNSOUND with the least state and then the least rule that fails, or 1 to 4.
pub fn check(sizes: Sizes, grammar: Grammar, table: &[i32], signing: Signing) -> Said {
    let given = Given { sizes, grammar, table, signing };
    if let Err(refusal) = judge_given(&given, true) {
        return refusal;
    }
    let reached = reachable(&given);
    let incoming = incoming(&given, &reached);
    let rights = grammar.right_sides();
    for s in (0..sizes.states).filter(|&s| reached[s]) {
        let rules = reduced_rules(&given, s);
        let longest = rules.iter().map(|&rule| rights[rule - 1].len()).max().unwrap_or(0);
        let steps = steps_back(&incoming, s, longest);
        if let Some(&rule) =
            rules.iter().find(|&&rule| !holds(&given, &steps, rule, rights[rule - 1]))
        {
            return Said::new(UNSOUND, &[s, rule]);
        }
    }
    Said::new(OK, &[])
}

/// An edge, told by where it comes from and by its symbol.
#[derive(Clone, Copy)]
struct Edge {
    from: usize,
    symbol: usize,
}

/// The states that stand some number of edges before a state on the paths to it.
struct Step {
    states: Vec<usize>,
    /// The symbol of all edges into these states, where no path begins in one of them and the symbols are one.
    symbol: Option<usize>,
}

/// The edges out of a state, each as its symbol and its target.
fn edges_from<'a>(given: &'a Given, s: usize) -> impl Iterator<Item = (usize, usize)> + 'a {
    (0..given.sizes.symbols)
        .map(move |a| (a, given.entry(s, a)))
        .filter(|&(_, entry)| entry > 0)
        .map(|(a, entry)| (a, entry as usize))
}

/// Says of each state whether a path leads to it from state 0.
fn reachable(given: &Given) -> Vec<bool> {
    let mut reached = vec![false; given.sizes.states];
    reached[0] = true;
    let mut waiting = vec![0];
    while let Some(s) = waiting.pop() {
        for (_, target) in edges_from(given, s) {
            if !reached[target] {
                reached[target] = true;
                waiting.push(target);
            }
        }
    }
    reached
}

/// The edges into each state from the states that a path leads to.
fn incoming(given: &Given, reached: &[bool]) -> Vec<Vec<Edge>> {
    let mut incoming = vec![Vec::new(); given.sizes.states];
    for from in (0..given.sizes.states).filter(|&s| reached[s]) {
        for (symbol, target) in edges_from(given, from) {
            incoming[target].push(Edge { from, symbol });
        }
    }
    incoming
}

/// The rules that row s of the filled table reduces by, each once, from low to high.
fn reduced_rules(given: &Given, s: usize) -> Vec<usize> {
    let mut rules: Vec<usize> = (0..given.sizes.terminals)
        .map(|a| given.filled(s, a))
        .filter(|&entry| entry < 0)
        .map(|entry| entry.unsigned_abs() as usize)
        .collect();
    rules.sort_unstable();
    rules.dedup();
    rules
}

/// The steps from s back, `far` of them or as many as spell anything.
fn steps_back(incoming: &[Vec<Edge>], s: usize, far: usize) -> Vec<Step> {
    let mut steps = vec![step(incoming, vec![s])];
    while steps.len() <= far {
        let last = &steps[steps.len() - 1];
        if last.symbol.is_none() {
            break;
        }
        let mut before: Vec<usize> =
            edges_into(incoming, &last.states).map(|edge| edge.from).collect();
        before.sort_unstable();
        before.dedup();
        steps.push(step(incoming, before));
    }
    steps
}

/// The step of these states, with the one symbol of the edges into them.
fn step(incoming: &[Vec<Edge>], states: Vec<usize>) -> Step {
    let first = edges_into(incoming, &states).next().map(|edge| edge.symbol);
    let one = !states.contains(&0)
        && edges_into(incoming, &states).all(|edge| Some(edge.symbol) == first);
    Step { states, symbol: if one { first } else { None } }
}

/// All edges into some states.
fn edges_into<'a>(
    incoming: &'a [Vec<Edge>],
    states: &'a [usize],
) -> impl Iterator<Item = Edge> + 'a {
    states.iter().flat_map(|&s| incoming[s].iter().copied())
}

/// Whether a rule with this right side fits every path whose last states the steps tell.
fn holds(given: &Given, steps: &[Step], rule: usize, right: &[u32]) -> bool {
    let spelt =
        right.iter().rev().zip(steps).all(|(&symbol, step)| step.symbol == Some(symbol as usize));
    if !spelt {
        return false;
    }
    let left = given.grammar.left[rule - 1] as usize;
    let before = &steps[right.len()].states;
    before.iter().all(|&state| if rule == 1 { state == 0 } else { given.entry(state, left) != 0 })
}
