//! Lists of numbers as text: decimal, a sign where negative, one space between.

use std::fmt::{Display, Write};
use std::str::FromStr;

/// Reads one number, which must be in plain decimal and fit its type.
pub fn parse_number<N: FromStr>(word: &str) -> Result<N, String> {
    if !is_plain(word) {
        return Err(format!("`{word}` is not a plain decimal number"));
    }
    word.parse().map_err(|_| format!("`{word}` does not fit its type"))
}

/// Reads the numbers after a key; no text at all is the empty list.
pub fn parse_list<N: FromStr>(words: Option<&str>) -> Result<Vec<N>, String> {
    match words {
        None => Ok(Vec::new()),
        Some(words) => words.split(' ').map(parse_number).collect(),
    }
}

/// Writes a key and its numbers as one line.
pub fn push_line<N: Display>(out: &mut String, key: &str, numbers: &[N]) {
    out.push_str(key);
    for number in numbers {
        write!(out, " {number}").expect("writing to a string does not fail");
    }
    out.push('\n');
}

/// Whether a word is a decimal number without plus sign, needless zero or minus nought.
fn is_plain(word: &str) -> bool {
    let digits = word.strip_prefix('-').unwrap_or(word);
    let all = !digits.is_empty() && digits.bytes().all(|b| b.is_ascii_digit());
    all && (!digits.starts_with('0') || word == "0")
}
