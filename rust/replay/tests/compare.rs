//! The product against the second program over random cases, and against the hand-made answers.

mod common;

use std::panic::{catch_unwind, AssertUnwindSafe};

use cases::edges::edges;
use cases::{write, Answer, Ask, Case, Given, Op};
use common::base_seed;
use replay::{random_cases, Product, Program, Second};

/// Random cases of each operation that are compared.
const COUNT: u64 = 5_000;

/// Compares two programs over random cases of an operation and panics at the first difference; gives
/// the number of cases compared.
fn compare(product: &dyn Program, second: &dyn Program, op: Op, base: u64, count: u64) -> u64 {
    let mut compared = 0;
    for (seed, case) in random_cases(op, base, count) {
        let found = product.answer(&case.ask);
        let expected = second.answer(&case.ask);
        if found != expected {
            panic!("{}", difference(seed, &case, &found, &expected));
        }
        compared += 1;
    }
    compared
}

/// All that is needed to look into a difference.
fn difference(seed: u64, case: &Case, found: &Answer, expected: &Answer) -> String {
    format!(
        "seed {seed}, operation {}\n{}the product answers\n{}the second program answers\n{}",
        case.ask.op().name(),
        write(case, None),
        said(case, found),
        said(case, expected),
    )
}

/// The lines of an answer.
fn said(case: &Case, answer: &Answer) -> String {
    let text = write(case, Some(answer));
    text.split_inclusive('\n').filter(|line| line.starts_with('>')).collect()
}

/// The second program with a fault: it says one move more where a parse is refused at the limit.
struct Faulty;

impl Program for Faulty {
    /// The answer with the fault.
    fn answer(&self, ask: &Ask) -> Answer {
        let mut answer = Second.answer(ask);
        if answer.code == Some(13) {
            answer.moves = answer.moves.map(|moves| moves + 1);
        }
        answer
    }

    /// The judgement, without a fault.
    fn judge(&self, given: &Given) -> Answer {
        Second.judge(given)
    }
}

/// A program that leaves off an operation after some cases.
struct Tiring;

impl Program for Tiring {
    /// The answer, or none where it would be BADCELL.
    fn answer(&self, ask: &Ask) -> Answer {
        match Second.answer(ask) {
            answer if answer.code == Some(14) => Answer::none(),
            answer => answer,
        }
    }

    /// The judgement, without a fault.
    fn judge(&self, given: &Given) -> Answer {
        Second.judge(given)
    }
}

/// What a comparison that fails says.
fn complaint(program: &dyn Program, op: Op) -> String {
    let result = catch_unwind(AssertUnwindSafe(|| compare(program, &Second, op, 1, COUNT)));
    let panic = result.expect_err("the comparison finds the fault");
    panic.downcast_ref::<String>().expect("a panic with a text").clone()
}

#[test]
fn the_product_agrees_with_the_second_program() {
    let seed = base_seed();
    for op in Op::ALL {
        let compared = compare(&Product, &Second, op, seed, COUNT);
        assert_eq!(compared, COUNT, "random cases of {} compared", op.name());
    }
}

#[test]
fn the_product_gives_the_answers_of_the_edges() {
    for (case, code, values) in edges() {
        let answer = Product.answer(&case.ask);
        assert_eq!((answer.code, answer.values), (Some(code), values), "{}", case.name);
    }
}

#[test]
fn a_program_agrees_with_itself_over_all_cases() {
    for op in Op::ALL {
        assert_eq!(compare(&Second, &Second, op, 5, 20), 20);
    }
}

#[test]
fn a_wrong_answer_is_reported_in_full() {
    let text = complaint(&Faulty, Op::Plain);
    assert!(text.starts_with("seed "), "{text}");
    assert!(text.contains(", operation plain\ncase plain-"), "{text}");
    assert!(text.contains("\nend\nthe product answers\n> code 13\n"), "{text}");
    assert!(text.contains("\nthe second program answers\n> code 13\n"), "{text}");
}

#[test]
fn an_operation_that_is_left_off_is_reported() {
    let text = complaint(&Tiring, Op::Read);
    assert!(text.contains("the product answers\n> code none\nthe second"), "{text}");
}
