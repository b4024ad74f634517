//! How numbers and rules are told in words.

use slettrein::{Grammar, Refusal};

use crate::{Packed, Tally};

/// So many things of one name: `1 blank`, `2 blanks`.
pub fn count(number: usize, name: &str) -> String {
    match number {
        1 => format!("1 {name}"),
        _ => format!("{number} {name}s"),
    }
}

/// Things of one name, counted, with their numbers in order: `4 terminals: 0 to 2, 5`.
pub fn list(name: &str, numbers: &[usize]) -> String {
    let counted = count(numbers.len(), name);
    match numbers {
        [] => counted,
        _ => {
            let runs = numbers.chunk_by(|before, after| before + 1 == *after);
            let runs: Vec<String> = runs.map(run).collect();
            format!("{counted}: {}", runs.join(", "))
        }
    }
}

/// Numbers that follow each other.
fn run(numbers: &[usize]) -> String {
    match numbers {
        [first, _, .., last] => format!("{first} to {last}"),
        _ => numbers.iter().map(usize::to_string).collect::<Vec<String>>().join(", "),
    }
}

/// A rule of a grammar by the numbers of its symbols, with an arrow between its sides.
pub fn rule(grammar: &Grammar, rule: usize, arrow: &str) -> String {
    let left = grammar.left(rule).map_or(String::new(), |left| left.to_string());
    let right: Vec<String> =
        grammar.right(rule).unwrap_or_default().iter().map(u32::to_string).collect();
    match right[..] {
        [] => format!("{left} {arrow} nothing"),
        _ => format!("{left} {arrow} {}", right.join(" ")),
    }
}

/// The sizes of a packed table and of its cells.
pub fn sizes(packed: &Packed) -> String {
    let grammar = packed.table.grammar();
    format!(
        "{} terminals, {} symbols, {}, {} states, {} cells",
        grammar.terminals(),
        grammar.symbols(),
        count(grammar.rules(), "rule"),
        packed.table.states(),
        packed.cells.base().len(),
    )
}

/// What the table check says.
pub fn check(said: &Result<(), Refusal>) -> String {
    match said {
        Ok(()) => "The table check passes.".to_string(),
        Err(refusal) => format!("The table check fails with {}", refused(refusal)),
    }
}

/// A refusal by document 01's name and number, with its sentence.
pub fn refused(refusal: &Refusal) -> String {
    format!("{} ({}): {refusal}", refusal.name(), refusal.number())
}

/// How many signatures there are, in how many cells, and how many blanks they fill.
pub fn tally(tally: Tally) -> String {
    let (cells, blanks) = (count(tally.cells, "cell"), count(tally.filled, "blank"));
    format!("{}, in {cells}, filling {blanks}", tally.signed)
}

/// A text of others with a question mark for each control character.
pub fn plain(text: &str) -> String {
    text.chars().map(|letter| if letter.is_control() { '?' } else { letter }).collect()
}

#[cfg(test)]
mod tests {
    use super::*;

    #[test]
    fn numbers_in_a_row_are_joined() {
        assert_eq!(list("state", &[]), "0 states");
        assert_eq!(list("state", &[7]), "1 state: 7");
        assert_eq!(list("state", &[0, 1]), "2 states: 0, 1");
        assert_eq!(
            list("state", &[0, 1, 2, 4, 6, 7, 9, 10, 11]),
            "9 states: 0 to 2, 4, 6, 7, 9 to 11"
        );
    }

    #[test]
    fn signatures_are_counted() {
        let none = Tally { signed: 0, cells: 0, filled: 0 };
        assert_eq!(tally(none), "0, in 0 cells, filling 0 blanks");
        let some = Tally { signed: 2, cells: 1, filled: 1 };
        assert_eq!(tally(some), "2, in 1 cell, filling 1 blank");
    }

    #[test]
    fn refusals_have_name_number_and_values() {
        let told = "UNSOUND (6): On some path to state 4 its reduction by rule 7 is wrong.";
        assert_eq!(refused(&Refusal::Unsound { state: 4, rule: 7 }), told);
    }

    #[test]
    fn texts_of_others_stay_on_one_line() {
        assert_eq!(plain("a\r\n\u{1b}[2Jb \u{e9}"), "a???[2Jb \u{e9}");
    }

    #[test]
    fn rules_are_told_by_their_symbols() {
        let grammar = Grammar::new(2, 5).rule(2, &[3]).rule(3, &[]).rule(3, &[3, 1]);
        let told: Vec<String> = (1..=3).map(|number| rule(&grammar, number, "->")).collect();
        assert_eq!(told, ["2 -> 3", "3 -> nothing", "3 -> 3 1"]);
    }
}
