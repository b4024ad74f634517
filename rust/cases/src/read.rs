//! Reading case files: a run of cases, one at a time, with the answers they expect.

use std::fmt;
use std::io::BufRead;

use crate::answer::Answer;
use crate::ask::{Ask, Case, Op};
use crate::expected::parse_answer;
use crate::slot::{empty, slots};

/// Every key that a line of an asking can begin with.
const KEYS: [&str; 19] = [
    "op", "dims", "left", "lens", "rights", "table", "srule", "sgoto", "base", "check", "marks",
    "place", "at", "tokens", "limit", "stack", "list", "text", "buffer",
];

/// Why a file is not a run of cases, and where.
#[derive(Clone, Debug, PartialEq, Eq)]
pub struct Fault {
    pub line: usize,
    pub reason: String,
}

/// A case of a file with its `>` lines, kept raw with their line numbers, and the line of its `end`.
#[derive(Clone, Debug, PartialEq, Eq)]
pub struct Entry {
    pub case: Case,
    pub expected: Vec<(usize, String)>,
    pub end: usize,
}

/// Yields the cases of a file one by one; after a fault it yields nothing more.
pub struct Reader<R> {
    from: R,
    line: usize,
    failed: bool,
}

/// A case whose `end` has not been reached.
struct Open {
    name: String,
    ask: Option<Ask>,
    filled: usize,
    expected: Vec<(usize, String)>,
}

/// Reads the cases of a file.
pub fn read<R: BufRead>(from: R) -> Reader<R> {
    Reader { from, line: 0, failed: false }
}

/// Takes a line apart into its key and the text after the first space.
pub(crate) fn split_key(line: &str) -> (&str, Option<&str>) {
    match line.split_once(' ') {
        None => (line, None),
        Some((key, words)) => (key, Some(words)),
    }
}

impl fmt::Display for Fault {
    /// The line and the reason.
    fn fmt(&self, out: &mut fmt::Formatter<'_>) -> fmt::Result {
        write!(out, "line {}: {}", self.line, self.reason)
    }
}

impl Entry {
    /// The answer that the file expects.
    pub fn answer(&self) -> Result<Answer, Fault> {
        parse_answer(self.case.ask.op(), &self.expected, self.end)
    }
}

impl<R: BufRead> Iterator for Reader<R> {
    type Item = Result<Entry, Fault>;

    /// The next case, or the fault that ends the reading.
    fn next(&mut self) -> Option<Self::Item> {
        if self.failed {
            return None;
        }
        match self.entry() {
            Ok(entry) => entry.map(Ok),
            Err(reason) => {
                self.failed = true;
                Some(Err(Fault { line: self.line, reason }))
            }
        }
    }
}

impl<R: BufRead> Reader<R> {
    /// The next case, or nothing at the end of the file; a fault is at the line just read.
    fn entry(&mut self) -> Result<Option<Entry>, String> {
        let mut open: Option<Open> = None;
        while let Some(line) = self.next_line()? {
            if line.starts_with('#') {
                continue;
            }
            if line.starts_with('>') {
                if let Some(open) = &mut open {
                    open.expected.push((self.line, line));
                }
                continue;
            }
            match open.take() {
                None => open = Some(Open::begin(&line)?),
                Some(case) if line == "end" => return case.finish(self.line).map(Some),
                Some(case) => open = Some(case.take_line(&line)?),
            }
        }
        match open {
            None => Ok(None),
            Some(_) => Err("missing `end`".to_string()),
        }
    }

    /// The next line without its LF, or nothing at the end of the file.
    fn next_line(&mut self) -> Result<Option<String>, String> {
        self.line += 1;
        let mut bytes = Vec::new();
        let count = self.from.read_until(b'\n', &mut bytes).map_err(|e| e.to_string())?;
        if count == 0 {
            return Ok(None);
        }
        if bytes.last() == Some(&b'\n') {
            bytes.pop();
        }
        String::from_utf8(bytes).map(Some).map_err(|_| "not UTF-8 text".to_string())
    }
}

impl Open {
    /// Begins a case with its first line.
    fn begin(line: &str) -> Result<Open, String> {
        match split_key(line) {
            ("case", Some(name)) if !name.is_empty() => {
                let name = name.to_string();
                Ok(Open { name, ask: None, filled: 0, expected: Vec::new() })
            }
            ("case", _) => Err("a case without a name".to_string()),
            _ => Err(format!("`case` expected, `{}` found", split_key(line).0)),
        }
    }

    /// Takes one more line of the asking.
    fn take_line(mut self, line: &str) -> Result<Open, String> {
        let (key, words) = split_key(line);
        if key == "case" {
            return Err("a case inside a case".to_string());
        }
        if !KEYS.contains(&key) {
            return Err(format!("unknown key `{key}`"));
        }
        match &mut self.ask {
            None => self.ask = Some(begin_ask(key, words)?),
            Some(ask) => {
                fill_next(ask, self.filled, key, words)?;
                self.filled += 1;
            }
        }
        Ok(self)
    }

    /// Ends the case, which must have all its keys.
    fn finish(self, end: usize) -> Result<Entry, String> {
        let Open { name, ask, filled, expected } = self;
        let Some(mut ask) = ask else {
            return Err("missing key `op`".to_string());
        };
        if let Some((key, _)) = slots(&mut ask).get(filled) {
            return Err(format!("missing key `{key}`"));
        }
        Ok(Entry { case: Case { name, ask }, expected, end })
    }
}

/// The empty asking of the operation that the `op` line names.
fn begin_ask(key: &str, words: Option<&str>) -> Result<Ask, String> {
    if key != "op" {
        return Err(format!("key `{key}` out of order, `op` expected"));
    }
    let name = words.unwrap_or("");
    Op::named(name).map(empty).ok_or_else(|| format!("unknown op `{name}`"))
}

/// Fills the next place of an asking, which must be the one of this key.
fn fill_next(ask: &mut Ask, next: usize, key: &str, words: Option<&str>) -> Result<(), String> {
    let op = ask.op().name();
    let mut places = slots(ask);
    if key != "op" && !places.iter().any(|(name, _)| *name == key) {
        return Err(format!("op `{op}` has no key `{key}`"));
    }
    let expected = places.get(next).map_or("end", |(name, _)| *name);
    if key != expected {
        return Err(format!("key `{key}` out of order, `{expected}` expected"));
    }
    let (_, slot) = places.swap_remove(next);
    slot.fill(words).map_err(|reason| format!("`{key}`: {reason}"))
}
