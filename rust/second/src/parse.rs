//! Parsing a lent token list, with cells or with the plain table.

use crate::cells::Cells;
use crate::judge::{
    cells_fit, feed_fits, grammar_fits, judge_given, judge_grammar, judge_size, numbers_fit,
};
use crate::machine::{run, Task};
use crate::{Given, Grammar, Said, Signing, Sizes};

/// Parses the tokens with cells; the stack holds the cells of the states.
#[allow(clippy::too_many_arguments)]
pub fn parse(
    terminals: usize,
    symbols: usize,
    rules: usize,
    grammar: Grammar,
    base: &[i32],
    check: &[i32],
    tokens: &[u32],
    limit: usize,
    stack: &mut [u32],
    list: &mut [u32],
) -> Said {
    let fits = numbers_fit(terminals, symbols, rules)
        && grammar_fits(rules, grammar)
        && cells_fit(base, check)
        && feed_fits(tokens, limit);
    if let Err(refusal) = judge_size(fits).and_then(|()| judge_grammar(terminals, symbols, grammar))
    {
        return refusal;
    }
    let cells = Cells { terminals, rules, base, check };
    run(&cells, &Task { terminals, grammar, tokens, limit }, stack, list)
}

/// Parses the tokens with the filled table.
#[allow(clippy::too_many_arguments)]
pub fn plain(
    sizes: Sizes,
    grammar: Grammar,
    table: &[i32],
    signing: Signing,
    tokens: &[u32],
    limit: usize,
    stack: &mut [u32],
    list: &mut [u32],
) -> Said {
    let given = Given { sizes, grammar, table, signing };
    if let Err(refusal) = judge_given(&given, feed_fits(tokens, limit)) {
        return refusal;
    }
    run(&given, &Task { terminals: sizes.terminals, grammar, tokens, limit }, stack, list)
}
