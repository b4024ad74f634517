//! Reading the `>` lines of a case: the answer that a file expects.

use crate::answer::{lent, Answer, Array};
use crate::ask::Op;
use crate::numbers::{parse_list, parse_number};
use crate::read::{split_key, Fault};

/// The `>` lines of a case that are still to be read.
struct Lines<'a> {
    rest: &'a [(usize, String)],
    line: usize,
    end: usize,
}

/// Reads the answer of an operation from its `>` lines; `end` is the line after them.
pub fn parse_answer(op: Op, lines: &[(usize, String)], end: usize) -> Result<Answer, Fault> {
    let line = lines.first().map_or(end, |(line, _)| *line);
    let mut lines = Lines { rest: lines, line, end };
    let answer = parse_lines(op, &mut lines);
    answer.map_err(|reason| Fault { line: lines.line, reason })
}

/// Reads all lines of the answer; of packsheet there is only what it printed.
fn parse_lines(op: Op, lines: &mut Lines<'_>) -> Result<Answer, String> {
    if op == Op::PackSheet && !lines.is_next("code") {
        let text = parse_list(lines.take("text")?)?;
        lines.done()?;
        return Ok(Answer::printed(text));
    }
    let word = lines.take("code")?.unwrap_or("");
    if word == "none" {
        lines.done()?;
        return Ok(Answer::none());
    }
    if op == Op::PackSheet {
        return Err("`> text` expected".to_string());
    }
    let mut answer = Answer { code: Some(parse_number(word)?), ..Answer::none() };
    answer.values = parse_list(lines.take("values")?)?;
    if lines.is_next("moves") {
        let word = lines.take("moves")?.unwrap_or("");
        answer.moves = Some(parse_number(word)?);
    }
    for (name, kind) in lent(op) {
        let words = lines.take(name)?;
        answer.arrays.push((name, parse_array(kind, words)?));
    }
    lines.done()?;
    Ok(answer)
}

/// Reads an array of the same kind as the given one.
fn parse_array(kind: Array, words: Option<&str>) -> Result<Array, String> {
    Ok(match kind {
        Array::Signed(_) => Array::Signed(parse_list(words)?),
        Array::Unsigned(_) => Array::Unsigned(parse_list(words)?),
        Array::Bytes(_) => Array::Bytes(parse_list(words)?),
    })
}

impl<'a> Lines<'a> {
    /// The key and the words of the next line, without its `> `.
    fn peek(&self) -> Option<(&'a str, Option<&'a str>)> {
        let (_, line) = self.rest.first()?;
        Some(split_key(line.strip_prefix("> ").unwrap_or("")))
    }

    /// Whether the next line has this key.
    fn is_next(&self, key: &str) -> bool {
        self.peek().is_some_and(|(found, _)| found == key)
    }

    /// Takes the next line, which must have this key, and gives the words after it.
    fn take(&mut self, key: &str) -> Result<Option<&'a str>, String> {
        self.line = self.rest.first().map_or(self.end, |(line, _)| *line);
        match self.peek() {
            Some((found, words)) if found == key => {
                self.rest = &self.rest[1..];
                Ok(words)
            }
            _ => Err(format!("`> {key}` expected")),
        }
    }

    /// Makes sure that no line is left.
    fn done(&mut self) -> Result<(), String> {
        match self.rest.first() {
            None => Ok(()),
            Some((line, text)) => {
                self.line = *line;
                Err(format!("`{text}` after the answer's last line"))
            }
        }
    }
}
