//! A case and its answer as text, in exactly the form of the vectors.

use crate::answer::{Answer, Array};
use crate::ask::{Case, Op};
use crate::numbers::push_line;
use crate::view::views;

/// The text of a case, with the lines of its answer where there is one.
pub fn write(case: &Case, answer: Option<&Answer>) -> String {
    let op = case.ask.op();
    let mut out = format!("case {}\nop {}\n", case.name, op.name());
    for (key, view) in views(&case.ask) {
        view.push(&mut out, key);
    }
    if let Some(answer) = answer {
        push_answer(&mut out, op, answer);
    }
    out.push_str("end\n");
    out
}

/// The lines of an answer: what was said, then the lent arrays; of packsheet only what it printed.
fn push_answer(out: &mut String, op: Op, answer: &Answer) {
    if answer.is_none() {
        out.push_str("> code none\n");
        return;
    }
    if op != Op::PackSheet {
        push_said(out, answer);
    }
    for (name, array) in &answer.arrays {
        let key = format!("> {name}");
        match array {
            Array::Signed(list) => push_line(out, &key, list),
            Array::Unsigned(list) => push_line(out, &key, list),
            Array::Bytes(list) => push_line(out, &key, list),
        }
    }
}

/// The number, the values and the moves.
fn push_said(out: &mut String, answer: &Answer) {
    push_line(out, "> code", answer.code.as_slice());
    push_line(out, "> values", &answer.values);
    if let Some(moves) = answer.moves {
        push_line(out, "> moves", &[moves]);
    }
}
