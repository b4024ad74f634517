//! The report as one HTML page, with the cells drawn as a grid.

use crate::grid::{grid, legend};
use crate::words::{check, list, plain, rule, sizes, tally};
use crate::{Packed, Report, SignedGoto, SignedRule};

/// How the page looks.
const STYLE: &str = include_str!("page.css");

/// How the drawing of the cells is read.
const CAPTION: &str = "<p>Each cell has its number, Base and Check, and what is there. \
                       Thick frames are signatures; every other cell comes from the table.</p>\n";

/// The report on a packed table as a page that needs no other file and no script.
pub fn page(packed: &Packed, report: &Report) -> String {
    let name = escaped(&packed.name);
    let (rules_told, gotos_told) = (tally(report.rule_tally()), tally(report.goto_tally()));
    let left = report.blanks_left();
    let parts = [
        heading(packed, report),
        section("Cells", format!("{CAPTION}{}{}", legend(), grid(packed))),
        section(&format!("Signed rules: {rules_told}"), rules(packed, report)),
        section(&format!("Signed gotos: {gotos_told}"), gotos(report)),
        section(&format!("Blanks for which nobody has signed: {left}"), blanks(report)),
    ];
    format!(
        "<!DOCTYPE html>\n<html lang=\"en\">\n<head>\n<meta charset=\"utf-8\"/>\n\
         <title>Audit of a packed table: {name}</title>\n<style>\n{STYLE}</style>\n</head>\n\
         <body>\n{}</body>\n</html>\n",
        parts.concat()
    )
}

/// What was audited, that it was read, whether it is sound, and whether anything is signed.
fn heading(packed: &Packed, report: &Report) -> String {
    let unsigned = match report.is_unsigned() {
        true => "<p>Nothing is signed: where the table is silent, nothing is decided.</p>\n",
        false => "",
    };
    format!(
        "<h1>Audit of a packed table: {}</h1>\n<p>{}.</p>\n\
         <p>Every state was read with every symbol: each answer is the table's or a signature's.</p>\n\
         <p>{}</p>\n{unsigned}",
        escaped(&packed.name),
        sizes(packed),
        check(&report.check)
    )
}

/// A part of the page under its heading, which stays in sight while the part is.
fn section(heading: &str, inner: String) -> String {
    format!("<section>\n<h2>{heading}</h2>\n{inner}</section>\n")
}

/// A text of others as a page shows it.
fn escaped(text: &str) -> String {
    plain(text).replace('&', "&amp;").replace('<', "&lt;").replace('>', "&gt;")
}

/// The table of signed rules.
fn rules(packed: &Packed, report: &Report) -> String {
    let rows = report.rules.iter().map(|signed| {
        let SignedRule { state, rule: number, cell, fills, repeats } = signed;
        let told = rule(packed.table.grammar(), *number, "&#8594;");
        [
            format!("state {state}"),
            format!("rule {number}: {told}"),
            link(*cell),
            list("terminal", fills),
            list("terminal", repeats),
        ]
    });
    signatures("rule", rows)
}

/// The table of signed gotos.
fn gotos(report: &Report) -> String {
    let rows = report.gotos.iter().map(|signed| {
        let SignedGoto { nonterminal, state, cell, fills, repeats } = signed;
        [
            format!("nonterminal {nonterminal}"),
            format!("state {state}"),
            link(*cell),
            list("state", fills),
            list("state", repeats),
        ]
    });
    signatures("state", rows)
}

/// The table of the blanks that are left.
fn blanks(report: &Report) -> String {
    let actions = report
        .blank_actions
        .iter()
        .map(|(state, terminals)| [format!("state {state}"), list("terminal", terminals)]);
    let gotos = report
        .blank_gotos
        .iter()
        .map(|(nonterminal, states)| [format!("nonterminal {nonterminal}"), list("state", states)]);
    table(["in", "blank for"], actions.chain(gotos))
}

/// A table of signatures of one kind.
fn signatures(kind: &str, rows: impl Iterator<Item = [String; 5]>) -> String {
    let head = ["for", kind, "cell", "fills the blanks of", "says what the table says for"];
    table(head, rows)
}

/// A table of rows under a head, or a word where there is no row.
fn table<const N: usize>(head: [&str; N], rows: impl Iterator<Item = [String; N]>) -> String {
    let rows: String = rows.map(|row| line("td", &row)).collect();
    match rows.is_empty() {
        true => "<p>none</p>\n".to_string(),
        false => format!("<table>\n{}{rows}</table>\n", line("th", &head)),
    }
}

/// A row of a table.
fn line(tag: &str, items: &[impl AsRef<str>]) -> String {
    let items = items.iter().map(|item| format!("<{tag}>{}</{tag}>", item.as_ref()));
    format!("<tr>{}</tr>\n", items.collect::<String>())
}

/// A cell's number, which leads to the cell in the grid.
fn link(cell: usize) -> String {
    format!("<a href=\"#cell-{cell}\">{cell}</a>")
}
