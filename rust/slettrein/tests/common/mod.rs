//! What the tests share: the tables of cases.

use cases::Given;
use slettrein::{Grammar, Refusal, Signing, Table};

/// The table of a case and its signing, or the first refusal; SIZE where its lists are not as long as its sizes say.
pub fn signed(given: &Given) -> Result<(Table, Signing), Refusal> {
    if !fits(given) {
        return Err(Refusal::Size);
    }
    let start = Grammar::new(given.sizes.terminals, given.sizes.symbols);
    let grammar = (1..=given.sizes.rules).fold(start, |grammar, rule| {
        grammar.rule(given.grammar.left[rule - 1] as usize, given.grammar.right(rule))
    });
    let table = Table::new(grammar, given.table.clone())?;
    let signing = table.sign(given.signing.srule.clone(), given.signing.sgoto.clone())?;
    Ok((table, signing))
}

/// Whether the lists of a case are as long as its sizes say.
fn fits(given: &Given) -> bool {
    let (sizes, grammar, signing) = (&given.sizes, &given.grammar, &given.signing);
    let symbols: u64 = grammar.lens.iter().map(|&length| u64::from(length)).sum();
    (grammar.left.len(), grammar.lens.len()) == (sizes.rules, sizes.rules)
        && symbols == grammar.rights.len() as u64
        && sizes.states.checked_mul(sizes.symbols) == Some(given.table.len())
        && signing.srule.len() == sizes.states
        && Some(signing.sgoto.len()) == sizes.symbols.checked_sub(sizes.terminals)
}
