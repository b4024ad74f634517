//! Tables and signings of cases, as the crate takes them.

use cases::Given;
use slettrein::{Grammar, Refusal, Signing, Table};

/// The table and the signing of a case; SIZE where its lists are not as long as its sizes say.
pub fn signed(given: &Given) -> Result<(Table, Signing), Refusal> {
    if !fits(given) {
        return Err(Refusal::Size);
    }
    let table = Table::new(grammar(given), given.table.clone())?;
    let signing = table.sign(given.signing.srule.clone(), given.signing.sgoto.clone())?;
    Ok((table, signing))
}

/// Whether rules, right sides, rows and signatures are as many as a case says.
fn fits(given: &Given) -> bool {
    let (sizes, grammar, signing) = (&given.sizes, &given.grammar, &given.signing);
    let symbols: u64 = grammar.lens.iter().map(|&length| u64::from(length)).sum();
    (grammar.left.len(), grammar.lens.len()) == (sizes.rules, sizes.rules)
        && symbols == grammar.rights.len() as u64
        && sizes.states.checked_mul(sizes.symbols) == Some(given.table.len())
        && signing.srule.len() == sizes.states
        && sizes.symbols.checked_sub(sizes.terminals) == Some(signing.sgoto.len())
}

/// The grammar of a case whose lists fit.
fn grammar(given: &Given) -> Grammar {
    let mut rest = &given.grammar.rights[..];
    let mut grammar = Grammar::new(given.sizes.terminals, given.sizes.symbols);
    for (left, length) in given.grammar.left.iter().zip(&given.grammar.lens) {
        let (right, after) = rest.split_at(*length as usize);
        grammar = grammar.rule(*left as usize, right);
        rest = after;
    }
    grammar
}
