//! Tables without a grammar behind them, as thick as a plan says.

use cases::{Given, Grammar, Signing, Sizes};

use crate::numbers::Numbers;

/// How a table is made: its sizes, how many entries in a thousand are written, and how many states share an action row.
pub struct Plan {
    pub sizes: Sizes,
    pub written: usize,
    pub alike: usize,
}

/// A good entry of a column.
fn entry(plan: &Plan, numbers: &mut Numbers, column: usize) -> i32 {
    let state = (numbers.below(plan.sizes.states - 1) + 1) as i32;
    let rule = -((numbers.below(plan.sizes.rules - 1) + 2) as i32);
    match (numbers.below(1000) < plan.written, column) {
        (false, _) => 0,
        (true, 0) => rule,
        (true, c) if c < plan.sizes.terminals => [state, rule][numbers.below(2)],
        (true, c) if c == plan.sizes.terminals => 0,
        _ => state,
    }
}

/// The table of a plan: blocks of states with the same action row, each state with its own gotos.
fn table(plan: &Plan) -> Vec<i32> {
    let Sizes { terminals, symbols, states, .. } = plan.sizes;
    let mut numbers = Numbers::new(symbols as u64);
    let mut table = Vec::new();
    for state in 0..states {
        let row: Vec<i32> = (0..symbols).map(|column| entry(plan, &mut numbers, column)).collect();
        let first = state / plan.alike * plan.alike * symbols;
        let actions = if state % plan.alike == 0 { &row } else { &table[first..first + terminals] };
        let actions = actions[..terminals].to_vec();
        table.extend(actions);
        table.extend(&row[terminals..]);
    }
    table
}

/// A table and its signing by a plan: every second state is signed, and every second nonterminal.
pub fn made(plan: &Plan) -> Given {
    let sizes = plan.sizes;
    let mut grammar = Grammar::default();
    let inner = sizes.terminals + 1;
    for rule in 0..sizes.rules {
        grammar.push(if rule == 0 { inner - 1 } else { inner }, &[inner as u32]);
    }
    let srule = (0..sizes.states).map(|state| (state % 2 * (state % (sizes.rules - 1) + 2)) as u32);
    let sgoto = (0..sizes.symbols - sizes.terminals).map(|n| (n % 2 * (n % sizes.states)) as u32);
    let signing = Signing { srule: srule.collect(), sgoto: sgoto.collect() };
    Given { sizes, grammar, table: table(plan), signing }
}
