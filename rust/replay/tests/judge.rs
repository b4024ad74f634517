//! The product's judgement against the second program's, and against the hand-made answers.

mod common;

use cases::edges::edges;
use cases::{judge_cases, Ask, Given};
use common::base_seed;
use replay::{Product, Program, Second};

/// Random inputs that are judged.
const COUNT: usize = 20_000;

/// What is judged in a case that begins with a judgement and nothing else.
fn judged(ask: Ask) -> Option<Given> {
    match ask {
        Ask::Check { given } => Some(given),
        _ => None,
    }
}

#[test]
fn the_product_judges_as_the_second_program() {
    for (seed, given) in judge_cases(base_seed(), COUNT) {
        assert_eq!(Product.judge(&given), Second.judge(&given), "seed {seed}: {given:?}");
    }
}

#[test]
fn the_product_judges_the_edges_as_they_must_be() {
    let mut seen = [0; 5];
    for (case, code, values) in edges() {
        let Some(given) = judged(case.ask) else { continue };
        // the table check says UNSOUND only of what the judgement passes
        let (code, values) = if code == 6 { (0, Vec::new()) } else { (code, values) };
        let answer = Product.judge(&given);
        assert_eq!((answer.code, answer.values), (Some(code), values), "{}", case.name);
        seen[code as usize] += 1;
    }
    assert!(seen.iter().all(|&n| n > 0), "cases of each number: {seen:?}");
}
