//! The signing sheet: its reader and its writer.

use crate::judge::{judge_signing, judge_size, signing_fits};
use crate::said::{Said, LINE, OK, TEXT};
use crate::{Signing, Sizes};

/// Reads a sheet into the lent signing: OK with the length of the text, or SIZE, LINE, SIGN.
pub fn sheet_read(sizes: Sizes, text: &[u8], srule: &mut [u32], sgoto: &mut [u32]) -> Said {
    match signing_of(sizes, text, srule, sgoto) {
        Ok((rules, states)) => {
            srule.copy_from_slice(&rules);
            sgoto.copy_from_slice(&states);
            Said::new(OK, &[text.len()])
        }
        Err(refusal) => refusal,
    }
}

/// Writes a signing as a sheet into the lent buffer: OK with the length of the text, or SIZE, SIGN, TEXT.
pub fn sheet_write(sizes: Sizes, signing: Signing, buffer: &mut [u8]) -> Said {
    let fits = signing_fits(sizes, signing.srule, signing.sgoto);
    if let Err(refusal) = judge_size(fits).and_then(|()| judge_signing(sizes, signing)) {
        return refusal;
    }
    let text = sheet_of(sizes, signing);
    if text.len() > buffer.len() {
        return Said::new(TEXT, &[]);
    }
    buffer[..text.len()].copy_from_slice(text.as_bytes());
    Said::new(OK, &[text.len()])
}

/// The signed rules and signed states that a sheet gives, judged.
fn signing_of(
    sizes: Sizes,
    text: &[u8],
    srule: &[u32],
    sgoto: &[u32],
) -> Result<(Vec<u32>, Vec<u32>), Said> {
    judge_size(signing_fits(sizes, srule, sgoto))?;
    let values = values_of(sizes, text).map_err(|BadLine(number)| Said::new(LINE, &[number]))?;
    let (rules, gotos) = values.split_at(sizes.states);
    let states = [&[0], gotos].concat();
    judge_signing(sizes, Signing { srule: rules, sgoto: &states })?;
    Ok((rules.to_vec(), states))
}

/// The number of the first line of a sheet that is not as it must be.
struct BadLine(usize);

/// The values of a sheet's states and nonterminals, in its order.
fn values_of(sizes: Sizes, text: &[u8]) -> Result<Vec<u32>, BadLine> {
    let mut lines = Lines { rest: text, number: 0 };
    for header in headers(sizes) {
        lines.next(|line| (line == header.as_bytes()).then_some(()))?;
    }
    let mut values = Vec::new();
    for key in keys(sizes) {
        values.push(lines.next(|line| value(line.strip_prefix(key.as_bytes())?))?);
    }
    if lines.rest.is_empty() {
        Ok(values)
    } else {
        Err(BadLine(lines.number + 1))
    }
}

/// The lines of a text that have not been read, and the number of the last one that was.
struct Lines<'a> {
    rest: &'a [u8],
    number: usize,
}

impl Lines<'_> {
    /// Reads the next line, which must end with LF and mean something.
    fn next<Meaning>(
        &mut self,
        meaning: impl Fn(&[u8]) -> Option<Meaning>,
    ) -> Result<Meaning, BadLine> {
        self.number += 1;
        let Some(end) = self.rest.iter().position(|&byte| byte == b'\n') else {
            return Err(BadLine(self.number));
        };
        let line = &self.rest[..end];
        self.rest = &self.rest[end + 1..];
        meaning(line).ok_or(BadLine(self.number))
    }
}

/// The number that a value stands for, 0 for none.
fn value(bytes: &[u8]) -> Option<u32> {
    if bytes == b"none" {
        return Some(0);
    }
    let digits = bytes.len() <= 5 && bytes.iter().all(u8::is_ascii_digit);
    if !digits || bytes.is_empty() || bytes[0] == b'0' {
        return None;
    }
    let number = bytes.iter().fold(0, |number, &digit| number * 10 + u32::from(digit - b'0'));
    (number <= 65_535).then_some(number)
}

/// The lines that stand before the signing.
fn headers(sizes: Sizes) -> [String; 5] {
    [
        "sheet=1".to_string(),
        format!("terminals={}", sizes.terminals),
        format!("symbols={}", sizes.symbols),
        format!("rules={}", sizes.rules),
        format!("states={}", sizes.states),
    ]
}

/// What stands before the value on each line of the signing.
fn keys(sizes: Sizes) -> impl Iterator<Item = String> {
    let states = (0..sizes.states).map(|s| format!("state.{s}="));
    let gotos = (sizes.terminals + 1..sizes.symbols).map(|a| format!("goto.{a}="));
    states.chain(gotos)
}

/// The text of the sheet of a good signing.
fn sheet_of(sizes: Sizes, signing: Signing) -> String {
    let mut text: String = headers(sizes).iter().map(|header| format!("{header}\n")).collect();
    for (key, &value) in keys(sizes).zip(signing.srule.iter().chain(&signing.sgoto[1..])) {
        match value {
            0 => text += &format!("{key}none\n"),
            number => text += &format!("{key}{number}\n"),
        }
    }
    text
}
