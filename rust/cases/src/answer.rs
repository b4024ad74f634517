//! What a program says back: the number, the values, the moves and the lent arrays after the call.

use crate::ask::Op;

/// The content of a lent array.
#[derive(Clone, Debug, PartialEq, Eq)]
pub enum Array {
    Signed(Vec<i32>),
    Unsigned(Vec<u32>),
    Bytes(Vec<u8>),
}

/// An answer; without a code it means that the program does not have the operation.
#[derive(Clone, Debug, Default, PartialEq, Eq)]
pub struct Answer {
    pub code: Option<u32>,
    pub values: Vec<u64>,
    pub moves: Option<u64>,
    pub arrays: Vec<(&'static str, Array)>,
}

impl Answer {
    /// The answer of a program that does not have the operation.
    pub fn none() -> Answer {
        Answer::default()
    }

    /// The answer of packsheet that printed this text; its code is the number that the text tells.
    pub fn printed(text: Vec<u8>) -> Answer {
        let code = told(&text);
        Answer { code, arrays: vec![("text", Array::Bytes(text))], ..Answer::default() }
    }

    /// Whether the program has the operation at all.
    pub fn is_none(&self) -> bool {
        self.code.is_none() && self.arrays.is_empty()
    }
}

/// The number that a printed text tells: 0 for cells, that of a refusal, and none for another text.
fn told(text: &[u8]) -> Option<u32> {
    if text.starts_with(b"cells=") {
        return Some(0);
    }
    let number = text.strip_prefix(b"refused=")?.strip_suffix(b"\n")?;
    std::str::from_utf8(number).ok()?.parse().ok()
}

/// An empty array of each name that an operation's answer has, in the order of the form.
pub(crate) fn lent(op: Op) -> Vec<(&'static str, Array)> {
    let signed = Array::Signed(Vec::new());
    let unsigned = Array::Unsigned(Vec::new());
    let bytes = Array::Bytes(Vec::new());
    match op {
        Op::Pack => vec![
            ("base", signed.clone()),
            ("check", signed),
            ("marks", unsigned.clone()),
            ("place", unsigned),
        ],
        Op::Parse | Op::Plain => vec![("stack", unsigned.clone()), ("list", unsigned)],
        Op::SheetRead => vec![("srule", unsigned.clone()), ("sgoto", unsigned)],
        Op::SheetWrite => vec![("buffer", bytes)],
        Op::PackSheet => vec![("text", bytes)],
        Op::Read | Op::Check => Vec::new(),
    }
}
