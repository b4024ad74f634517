//! The signatures, their cells and the blanks they fill are those that the second program has.

use audit::{text, Asked, Tally};

use crate::found::Found;
use crate::tables::{asked, audited, random_tables, NAMES};

/// Seeds of random tables that are looked at.
const SEEDS: u64 = 2_000;

/// Compares the report on a good table with what the second program says of it, which is given back.
fn compared(asked: &Asked) -> Found {
    let (packed, report) = audited(asked);
    let found = Found::new(&asked.given);
    assert_eq!(Found::told(&report), found);
    assert_eq!(report.is_unsigned(), found.rules.is_empty() && found.gotos.is_empty());
    assert_eq!(counts_of_text(&text(&packed, &report)), counts(&found));
    let filled = found.filled_by_rules() + found.filled_by_gotos();
    assert_eq!(filled + found.left(), all_blanks(asked));
    found
}

/// The blanks of a table, those under the start symbol left out.
fn all_blanks(asked: &Asked) -> usize {
    let sizes = &asked.given.sizes;
    let under = asked.given.table.iter().enumerate().map(|(at, e)| (at % sizes.symbols, *e));
    under.filter(|(symbol, entry)| *symbol != sizes.terminals && *entry == 0).count()
}

/// The counts that a report's text says: of rules, of gotos, of blanks left.
fn counts_of_text(text: &str) -> [Vec<usize>; 3] {
    let heads = ["Signed rules: ", "Signed gotos: ", "Blanks for which nobody has signed: "];
    heads.map(|head| {
        let line = text.lines().find_map(|line| line.strip_prefix(head)).expect("a line of each");
        let words = line.split(|letter: char| !letter.is_ascii_digit());
        words.filter_map(|word| word.parse().ok()).collect()
    })
}

/// The same counts of what the second program says.
fn counts(found: &Found) -> [Vec<usize>; 3] {
    [
        vec![found.rules.len(), found.rule_cells, found.filled_by_rules()],
        vec![found.gotos.len(), found.goto_cells, found.filled_by_gotos()],
        vec![found.left()],
    ]
}

/// The counts of an example table.
fn counted(name: &str) -> (Tally, Tally, usize) {
    let (_, report) = audited(&asked(name));
    (report.rule_tally(), report.goto_tally(), report.blanks_left())
}

#[test]
fn the_example_tables_have_what_the_second_program_has() {
    for name in NAMES {
        compared(&asked(name));
    }
}

#[test]
fn random_tables_have_what_the_second_program_has() {
    let (mut seen, mut rules, mut gotos) = (0, 0, 0);
    for asked in random_tables(SEEDS) {
        let found = compared(&asked);
        seen += 1;
        rules += found.filled_by_rules();
        gotos += found.filled_by_gotos();
    }
    assert!(seen > SEEDS / 2, "{seen} tables");
    assert!(rules > 1_000 && gotos > 1_000, "{rules} and {gotos} blanks filled");
}

#[test]
fn a_rule_that_repeats_fills_no_blank() {
    let rules = Tally { signed: 4, cells: 4, filled: 0 };
    let gotos = Tally { signed: 2, cells: 2, filled: 11 };
    assert_eq!(counted("board"), (rules, gotos, 3));
}

#[test]
fn a_rule_that_fills_blanks_is_counted() {
    let rules = Tally { signed: 4, cells: 4, filled: 4 };
    let gotos = Tally { signed: 1, cells: 1, filled: 5 };
    assert_eq!(counted("blanked"), (rules, gotos, 9));
}

#[test]
fn another_signing_is_noticed() {
    let (_, report) = audited(&asked("board"));
    let told = Found::told(&report);
    let mut other = asked("board").given;
    assert_eq!(told, Found::new(&other));
    other.signing.srule[4] = 4;
    assert_ne!(told, Found::new(&other));
    let mut other = asked("board").given;
    other.signing.sgoto[1] = 0;
    assert_ne!(told, Found::new(&other));
}
