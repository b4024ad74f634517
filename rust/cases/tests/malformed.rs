//! Files that are no runs of cases are refused at the right line and for the right reason.

use cases::{read, Fault};

/// A good case of `check` with its answer, by lines.
const GOOD: [&str; 12] = [
    "case good",
    "op check",
    "dims 2 4 2 2",
    "left 2 3",
    "lens 1 0",
    "rights 3",
    "table -2 0 0 1 -1 0 0 0",
    "srule 0 0",
    "sgoto 0 0",
    "> code 0",
    "> values",
    "end",
];

/// The good case with the line from 1 on replaced by other lines.
fn changed(line: usize, by: &[&str]) -> String {
    let mut lines = GOOD.to_vec();
    lines.splice(line - 1..line, by.iter().copied());
    lines.join("\n") + "\n"
}

/// The first fault of a text, whether in an asking or in an answer.
fn fault(text: &[u8]) -> Option<Fault> {
    for entry in read(text) {
        match entry.and_then(|entry| entry.answer()) {
            Ok(_) => {}
            Err(fault) => return Some(fault),
        }
    }
    None
}

/// Makes sure that the good case with a changed line is refused.
fn refused(line: usize, by: &[&str], at: usize, reason: &str) {
    let text = changed(line, by);
    let found = fault(text.as_bytes()).unwrap_or_else(|| panic!("not refused:\n{text}"));
    assert_eq!((found.line, found.reason.as_str()), (at, reason), "in\n{text}");
}

#[test]
fn the_good_case_is_good() {
    assert_eq!(fault(changed(1, &["# a comment", "case good"]).as_bytes()), None);
    assert_eq!(fault(changed(5, &["# a comment", "lens 1 0"]).as_bytes()), None);
    assert_eq!(fault(b""), None);
}

#[test]
fn keys() {
    refused(4, &["lefts 2 3"], 4, "unknown key `lefts`");
    refused(4, &[""], 4, "unknown key ``");
    refused(4, &["Left 2 3"], 4, "unknown key `Left`");
    refused(4, &[" left 2 3"], 4, "unknown key ``");
    refused(4, &["base 2 3"], 4, "op `check` has no key `base`");
    refused(4, &["lens 1 0"], 4, "key `lens` out of order, `left` expected");
    refused(4, &["left 2 3", "left 2 3"], 5, "key `left` out of order, `lens` expected");
    refused(4, &["op check"], 4, "key `op` out of order, `left` expected");
    refused(9, &["sgoto 0 0", "table 0"], 10, "key `table` out of order, `end` expected");
    refused(9, &[], 11, "missing key `sgoto`");
    refused(2, &["dims 2 4 2 2"], 2, "key `dims` out of order, `op` expected");
    refused(2, &["end"], 2, "missing key `op`");
    refused(2, &["op"], 2, "unknown op ``");
    refused(2, &["op checks"], 2, "unknown op `checks`");
}

#[test]
fn numbers() {
    refused(3, &["dims 2 4 2"], 3, "`dims`: 4 numbers expected, 3 found");
    refused(3, &["dims 2 4 2 2 2"], 3, "`dims`: 4 numbers expected, 5 found");
    refused(3, &["dims 2 4 2 -2"], 3, "`dims`: `-2` does not fit its type");
    let large = "`dims`: `18446744073709551616` does not fit its type";
    refused(3, &["dims 18446744073709551616 4 2 2"], 3, large);
    refused(4, &["left 2 4294967296"], 4, "`left`: `4294967296` does not fit its type");
    refused(7, &["table 2147483648"], 7, "`table`: `2147483648` does not fit its type");
    refused(7, &["table -2147483649"], 7, "`table`: `-2147483649` does not fit its type");
    for word in ["+2", "02", "-0", "x", "2.", "", "2\t", "2\r", "-", "--2"] {
        let reason = format!("`left`: `{word}` is not a plain decimal number");
        refused(4, &[&format!("left {word}")], 4, &reason);
    }
    refused(4, &["left 2  3"], 4, "`left`: `` is not a plain decimal number");
}

#[test]
fn cases_and_ends() {
    refused(12, &[], 12, "missing `end`");
    refused(12, &["case other"], 12, "a case inside a case");
    refused(12, &["ends"], 12, "unknown key `ends`");
    refused(12, &["end", "end"], 13, "`case` expected, `end` found");
    refused(1, &["op check"], 1, "`case` expected, `op` found");
    refused(1, &["case"], 1, "a case without a name");
    refused(1, &["case "], 1, "a case without a name");
    let found = fault(b"case a\nop pack\xff\n").expect("a fault");
    assert_eq!((found.line, found.reason.as_str()), (2, "not UTF-8 text"));
}

#[test]
fn answers() {
    refused(10, &[], 10, "`> code` expected");
    refused(10, &["> code 0 0"], 10, "`0 0` is not a plain decimal number");
    refused(10, &["> code 4294967296"], 10, "`4294967296` does not fit its type");
    refused(10, &["> code none"], 11, "`> values` after the answer's last line");
    refused(11, &[], 11, "`> values` expected");
    refused(11, &[">values"], 11, "`> values` expected");
    refused(11, &["> values", "> moves x"], 12, "`x` is not a plain decimal number");
    refused(11, &["> values", "> list 0"], 12, "`> list 0` after the answer's last line");
    let sheet = b"case a\nop packsheet\ntext 1\n> code 0\nend\n";
    assert_eq!(fault(sheet).expect("a fault").reason, "`> text` expected");
    let sheet = b"case a\nop packsheet\ntext 256\n> text 1\nend\n";
    assert_eq!(fault(sheet).expect("a fault").reason, "`text`: `256` does not fit its type");
}

#[test]
fn nothing_is_read_after_a_fault() {
    let text = changed(3, &["dims"]) + &changed(1, &["case second"]);
    let mut reader = read(text.as_bytes());
    assert!(matches!(reader.next(), Some(Err(_))));
    assert!(reader.next().is_none());
}
