//! The report as text.

use crate::words::{check, list, plain, rule, sizes, tally};
use crate::{Packed, Report, SignedGoto, SignedRule};

/// The report on a packed table as text, each line ended by LF.
pub fn text(packed: &Packed, report: &Report) -> String {
    let grammar = packed.table.grammar();
    let mut text = heading(packed, report);
    text += &format!("\nSigned rules: {}\n", tally(report.rule_tally()));
    for signed in &report.rules {
        text += &signed_rule(signed, &rule(grammar, signed.rule, "->"));
    }
    text += &format!("\nSigned gotos: {}\n", tally(report.goto_tally()));
    text.extend(report.gotos.iter().map(signed_goto));
    text += &format!("\nBlanks for which nobody has signed: {}\n", report.blanks_left());
    text + &blanks(report)
}

/// What was audited, that it was read, whether it is sound, and whether anything is signed.
fn heading(packed: &Packed, report: &Report) -> String {
    let unsigned = match report.is_unsigned() {
        true => "Nothing is signed: where the table is silent, nothing is decided.\n",
        false => "",
    };
    format!(
        "Audit of a packed table: {}\n\
         {}.\n\
         Every state was read with every symbol: each answer is the table's or a signature's.\n\
         {}\n{unsigned}",
        plain(&packed.name),
        sizes(packed),
        check(&report.check)
    )
}

/// The lines of the blanks that are left.
fn blanks(report: &Report) -> String {
    let mut text = String::new();
    for (state, terminals) in &report.blank_actions {
        text += &format!("state {state}, {}\n", list("terminal", terminals));
    }
    for (nonterminal, states) in &report.blank_gotos {
        text += &format!("nonterminal {nonterminal}, {}\n", list("state", states));
    }
    text
}

/// The lines of a signed rule.
fn signed_rule(signed: &SignedRule, told: &str) -> String {
    let SignedRule { state, rule, cell, fills, repeats } = signed;
    format!(
        "state {state}, rule {rule} ({told})\n    \
         stands at cell {cell}, beside the state at cell {}\n    \
         fills the blanks of {}\n    \
         says what the table says for {}\n",
        cell - 1,
        list("terminal", fills),
        list("terminal", repeats),
    )
}

/// The lines of a signed goto.
fn signed_goto(signed: &SignedGoto) -> String {
    let SignedGoto { nonterminal, state, cell, fills, repeats } = signed;
    format!(
        "nonterminal {nonterminal}, state {state}\n    \
         stands at cell {cell}\n    \
         fills the blanks of {}\n    \
         says what the table says for {}\n",
        list("state", fills),
        list("state", repeats),
    )
}
