//! A file that is no table, or whose table is refused, brings one sentence and no report.

use std::fs;
use std::path::{Path, PathBuf};
use std::process::Output;

use crate::program::run;
use crate::tables::file;

/// Writes a file for a test.
fn written(name: &str, bytes: &[u8]) -> PathBuf {
    let path = Path::new(env!("CARGO_TARGET_TMPDIR")).join(name);
    fs::write(&path, bytes).expect("a file can be written");
    path
}

/// The sentence that the program says of a file, as text or as a page, in place of a report.
fn sentence(path: &Path) -> String {
    let said = [&[path][..], &[Path::new("--html"), path]].map(|arguments| {
        let Output { status, stdout, stderr } = run(arguments);
        assert_eq!((status.code(), stdout.as_slice()), (Some(1), &b""[..]), "{path:?}");
        String::from_utf8(stderr).expect("text")
    });
    assert_eq!(said[0], said[1]);
    let start = format!("audit: {} ", path.display());
    let rest = said[0].strip_prefix(&start).and_then(|rest| rest.strip_suffix('\n'));
    let rest = rest.unwrap_or_else(|| panic!("{} of {path:?}", said[0]));
    assert!(!rest.chars().any(char::is_control), "{rest:?}");
    rest.to_string()
}

/// The sentence that is said of a text.
fn said_of(name: &str, text: impl AsRef<[u8]>) -> String {
    sentence(&written(name, text.as_ref()))
}

/// The small board's file with one text in the place of another, which must be there.
fn board(from: &str, to: &str) -> String {
    let text = file("board");
    assert!(text.contains(from), "{from}");
    text.replacen(from, to, 1)
}

/// The small board's file as a case of `pack` that lends arrays of these lengths.
fn lending([base, check, marks, place]: [usize; 4]) -> String {
    let line = |key: &str, length: usize| format!("{key}{}\n", " 0".repeat(length));
    let lent = [("base", base), ("check", check), ("marks", marks), ("place", place)];
    let lines: String = lent.map(|(key, length)| line(key, length)).concat();
    board("op check\n", "op pack\n").replacen("end\n", &format!("{lines}end\n"), 1)
}

#[test]
fn a_table_that_is_not_good_is_refused() {
    for (from, to, told) in [
        (
            "dims 3 6 5 7",
            "dims 3 6 5 8",
            "SIZE (1): A number is out of bounds, or a list too long or short.",
        ),
        (
            "srule 0 0",
            "srule 0",
            "SIZE (1): A number is out of bounds, or a list too long or short.",
        ),
        (
            "lens 1 2 1",
            "lens 1 2 4294967295",
            "SIZE (1): A number is out of bounds, or a list too long or short.",
        ),
        ("left 3 4 4", "left 3 4 1", "GRAMMAR (2): Rule 3 is not as a rule must be."),
        (
            "-3 -3 -3",
            "-3 -1 -3",
            "ENTRY (3): The entry of state 2 and symbol 1, index 13, is not allowed.",
        ),
        (
            "srule 0 0 3 4 0",
            "srule 0 0 3 4 1",
            "SIGN (4): What is signed for state 4 cannot be signed.",
        ),
        (
            "sgoto 0 1 5",
            "sgoto 0 1 1",
            "SIGN (4): What is signed for nonterminal 5 cannot be signed.",
        ),
    ] {
        let said = said_of("not-good.txt", board(from, to));
        assert_eq!(said, format!("is refused with {told}"), "{to}");
    }
}

#[test]
fn a_wrong_length_is_said_before_a_bad_rule() {
    for (from, to) in [("srule 0 0", "srule 0"), ("sgoto 0 1", "sgoto 0"), ("table 0 3", "table 0")]
    {
        let text = board("left 3 4 4", "left 3 4 1").replacen(from, to, 1);
        let said = said_of("both.txt", text);
        assert!(said.starts_with("is refused with SIZE (1): "), "{to}: {said}");
    }
}

#[test]
fn a_file_that_is_no_table_is_refused() {
    for (from, to, told) in [
        ("op check", "op pick", "line 3: unknown op `pick`."),
        ("op check\n", "", "line 3: key `dims` out of order, `op` expected."),
        ("dims 3 6 5 7", "dims 3 6 5", "line 4: `dims`: 4 numbers expected, 3 found."),
        ("left 3", "left 3.", "line 5: `left`: `3.` is not a plain decimal number."),
        ("left 3", "left -3", "line 5: `left`: `-3` does not fit its type."),
        ("left", "lift", "line 5: unknown key `lift`."),
        ("sgoto 0 1 5\n", "", "line 10: missing key `sgoto`."),
        ("end\n", "", "line 11: missing `end`."),
        ("case small board\n", "", "line 2: `case` expected, `op` found."),
        ("op check\n", "op check\r\n", "line 3: unknown op `check?`."),
    ] {
        let said = said_of("no-table.txt", board(from, to));
        assert_eq!(said, format!("cannot be read: {told}"), "{to}");
    }
}

#[test]
fn a_file_of_other_cases_is_refused() {
    let two = file("board") + &file("house");
    for (text, told) in [
        ("", "it has 0 cases, and one is expected."),
        ("# nothing\n", "it has 0 cases, and one is expected."),
        (&two, "it has 2 cases, and one is expected."),
        (
            "case x\nop packsheet\ntext\nend\n",
            "its case is of `packsheet`, and `check` or `pack` is expected.",
        ),
    ] {
        assert_eq!(said_of("other.txt", text), format!("cannot be read: {told}"), "{text}");
    }
    assert_eq!(said_of("bytes.txt", [b'#', 0xff]), "cannot be read: line 1: not UTF-8 text.");
}

#[test]
fn a_file_that_is_not_there_is_refused() {
    let said = sentence(&Path::new(env!("CARGO_TARGET_TMPDIR")).join("no such file"));
    assert!(said.starts_with("cannot be read: ") && said.ends_with('.'), "{said}");
    let said = sentence(Path::new(env!("CARGO_TARGET_TMPDIR")));
    assert!(said.starts_with("cannot be read: line 1: ") && said.ends_with('.'), "{said}");
}

#[test]
fn a_table_that_needs_more_cells_than_are_lent_is_refused() {
    let said = said_of("no-room.txt", lending([20, 20, 20, 7]));
    assert_eq!(said, "is refused with NOROOM (5): The table needs more cells than there may be.");
    for lengths in [[21, 20, 21, 7], [21, 21, 22, 7], [21, 21, 21, 8], [1, 1, 1, 7]] {
        let said = said_of("lent.txt", lending(lengths));
        let told =
            "is refused with SIZE (1): A number is out of bounds, or a list too long or short.";
        assert_eq!(said, told, "{lengths:?}");
    }
    let path = written("room.txt", lending([21, 21, 21, 7]).as_bytes());
    let told = String::from_utf8(run(&[path]).stdout).expect("text");
    assert_eq!(told, include_str!("../stored/board.txt"));
}
