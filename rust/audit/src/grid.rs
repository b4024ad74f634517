//! Cells drawn as a grid that is as wide as the page.

use crate::kind::{kinds, Kind};
use crate::Packed;

/// The kinds that the legend explains: class and words.
const LEGEND: [(&str, &str); 7] = [
    ("signed-rule", "signed rule"),
    ("signed-goto", "signed goto"),
    ("state", "state"),
    ("attached", "attached to the state before"),
    ("reduce", "reduce or accept"),
    ("pointer", "pointer to a state's cell"),
    ("free", "free"),
];

/// How a cell is told: its class, what is there, for whom it is signed, and all of it as a sentence.
struct Told {
    class: &'static str,
    what: String,
    whom: String,
    sentence: String,
}

/// All cells of a packed table: number, Base and Check, what is there, and for whom it is signed.
pub fn grid(packed: &Packed) -> String {
    let boxes = kinds(packed).into_iter().enumerate().map(|(cell, kind)| {
        let Told { class, what, whom, sentence } = told(kind);
        let (base, check) = (packed.cells.base()[cell], packed.cells.check()[cell]);
        let whom = if whom.is_empty() { whom } else { format!("<i>{whom}</i>") };
        format!(
            "<li id=\"cell-{cell}\" class=\"{class}\" title=\"cell {cell}: {sentence}\">\
             <b>{cell}</b><code>{base}, {check}</code><span>{what}</span>{whom}</li>\n"
        )
    });
    format!("<ol class=\"cells\">\n{}</ol>\n", boxes.collect::<String>())
}

/// A box of each kind with its name.
pub fn legend() -> String {
    let boxes = LEGEND.iter().map(|(class, words)| format!("<li class=\"{class}\">{words}</li>\n"));
    format!("<ul class=\"legend\">\n{}</ul>\n", boxes.collect::<String>())
}

/// How a cell of a kind is told.
fn told(kind: Kind) -> Told {
    match kind {
        Kind::Free => plain("free", String::new(), "nothing stands here".to_string()),
        Kind::State(state) => plain("state", format!("state {state}"), format!("state {state}")),
        Kind::SignedGoto { state, nonterminal } => Told {
            class: "signed-goto",
            what: format!("state {state}"),
            whom: format!("for symbol {nonterminal}"),
            sentence: format!("state {state}, signed for nonterminal {nonterminal}"),
        },
        Kind::Attached(state) => plain(
            "attached",
            format!("of state {state}"),
            format!("attached to state {state}, for which no rule is signed"),
        ),
        Kind::SignedRule { state, rule } => Told {
            class: "signed-rule",
            what: format!("rule {rule}"),
            whom: format!("for state {state}"),
            sentence: format!("attached to state {state}, for which rule {rule} is signed"),
        },
        Kind::Reduce(1) => plain("reduce", "accept".to_string(), "accept".to_string()),
        Kind::Reduce(rule) => {
            plain("reduce", format!("rule {rule}"), format!("reduce by rule {rule}"))
        }
        Kind::Pointer(cell) => plain(
            "pointer",
            format!("to cell {cell}"),
            format!("pointer to the state at cell {cell}"),
        ),
    }
}

/// How a cell is told in which nothing is signed.
fn plain(class: &'static str, what: String, sentence: String) -> Told {
    Told { class, what, whom: String::new(), sentence }
}
