//! The refusals that come before all work, in their order: SIZE, GRAMMAR, ENTRY, SIGN.

use crate::said::{Said, ENTRY, GRAMMAR, OK, SIGN, SIZE};
use crate::{Given, Grammar, Signing, Sizes};

/// Judges a grammar, its table and its signing: OK, or the first of SIZE, GRAMMAR, ENTRY and SIGN.
pub fn judge(sizes: Sizes, grammar: Grammar, table: &[i32], signing: Signing) -> Said {
    let given = Given { sizes, grammar, table, signing };
    match judge_given(&given, true) {
        Ok(()) => Said::new(OK, &[]),
        Err(refusal) => refusal,
    }
}

/// Judges what is given, where `others` says whether the caller's other arguments have good sizes.
pub(crate) fn judge_given(given: &Given, others: bool) -> Result<(), Said> {
    judge_size(given_fits(given) && others)?;
    judge_grammar(given.sizes.terminals, given.sizes.symbols, given.grammar)?;
    judge_table(given.sizes, given.table)?;
    judge_signing(given.sizes, given.signing)
}

/// Refuses with SIZE unless all bounds and lengths are good.
pub(crate) fn judge_size(good: bool) -> Result<(), Said> {
    if good {
        Ok(())
    } else {
        Err(Said::new(SIZE, &[]))
    }
}

/// Whether T, M and G are in their bounds.
pub(crate) fn numbers_fit(terminals: usize, symbols: usize, rules: usize) -> bool {
    (2..=256).contains(&terminals)
        && (terminals + 2..=512).contains(&symbols)
        && (1..=1_024).contains(&rules)
}

/// Whether the grammar's arrays have their lengths and no right side is above 64 symbols.
pub(crate) fn grammar_fits(rules: usize, grammar: Grammar) -> bool {
    grammar.left.len() == rules
        && grammar.lens.len() == rules
        && grammar.lens.iter().all(|&length| length <= 64)
        && grammar.lens.iter().map(|&length| length as usize).sum::<usize>() == grammar.rights.len()
}

/// Whether T, M, G and L are in their bounds and a signing has an entry for each state and each nonterminal.
pub(crate) fn signing_fits(sizes: Sizes, srule: &[u32], sgoto: &[u32]) -> bool {
    numbers_fit(sizes.terminals, sizes.symbols, sizes.rules)
        && (2..=1_024).contains(&sizes.states)
        && srule.len() == sizes.states
        && sgoto.len() == sizes.symbols - sizes.terminals
}

/// Whether the number of cells is in its bounds and Check is as long as Base.
pub(crate) fn cells_fit(base: &[i32], check: &[i32]) -> bool {
    (2..=65_536).contains(&base.len()) && check.len() == base.len()
}

/// Whether the number of tokens and the move limit are in their bounds.
pub(crate) fn feed_fits(tokens: &[u32], limit: usize) -> bool {
    tokens.len() <= 65_535 && limit <= 1_000_000
}

/// Whether all bounds and lengths of a grammar, its table and its signing are good.
fn given_fits(given: &Given) -> bool {
    let sizes = given.sizes;
    signing_fits(sizes, given.signing.srule, given.signing.sgoto)
        && grammar_fits(sizes.rules, given.grammar)
        && given.table.len() == sizes.states * sizes.symbols
}

/// Refuses with GRAMMAR and the lowest bad rule.
pub(crate) fn judge_grammar(
    terminals: usize,
    symbols: usize,
    grammar: Grammar,
) -> Result<(), Said> {
    let nonterminal = |symbol: u32| (terminals + 1..symbols).contains(&(symbol as usize));
    let on_a_right_side =
        |symbol: u32| (1..terminals).contains(&(symbol as usize)) || nonterminal(symbol);
    for (index, right) in grammar.right_sides().into_iter().enumerate() {
        let rule = index + 1;
        let left = grammar.left[index];
        let good = if rule == 1 {
            left as usize == terminals && right.len() == 1 && nonterminal(right[0])
        } else {
            nonterminal(left) && right.iter().all(|&symbol| on_a_right_side(symbol))
        };
        if !good {
            return Err(Said::new(GRAMMAR, &[rule]));
        }
    }
    Ok(())
}

/// Refuses with ENTRY and the lowest bad index of the table.
fn judge_table(sizes: Sizes, table: &[i32]) -> Result<(), Said> {
    match table
        .iter()
        .enumerate()
        .position(|(index, &entry)| !good_entry(sizes, index % sizes.symbols, entry))
    {
        Some(index) => Err(Said::new(ENTRY, &[index])),
        None => Ok(()),
    }
}

/// Whether an entry may stand in the column of symbol a.
fn good_entry(sizes: Sizes, a: usize, entry: i32) -> bool {
    let state = (1..sizes.states as i32).contains(&entry);
    let reduce = (-(sizes.rules as i32)..=-2).contains(&entry);
    let accept = entry == -1;
    if entry == 0 {
        true
    } else if a == 0 {
        accept || reduce
    } else if a < sizes.terminals {
        state || reduce
    } else {
        a != sizes.terminals && state
    }
}

/// Refuses with SIGN and the lowest bad state, else the lowest bad nonterminal.
pub(crate) fn judge_signing(sizes: Sizes, signing: Signing) -> Result<(), Said> {
    let good_rule = |&rule: &u32| rule == 0 || (2..=sizes.rules).contains(&(rule as usize));
    if let Some(state) = signing.srule.iter().position(|rule| !good_rule(rule)) {
        return Err(Said::new(SIGN, &[0, state]));
    }
    for (index, &target) in signing.sgoto.iter().enumerate() {
        let in_range = if index == 0 { target == 0 } else { (target as usize) < sizes.states };
        let again = target != 0 && signing.sgoto[..index].contains(&target);
        if !in_range || again {
            return Err(Said::new(SIGN, &[1, sizes.terminals + index]));
        }
    }
    Ok(())
}
