//! The program's reports on the small board and on the example tables are the stored ones.

use std::ffi::OsStr;
use std::fs;
use std::process::{Command, Output};

use slettrein::house;

use crate::tables::{asked, file, path};

/// Runs the program.
pub fn run<S: AsRef<OsStr>>(arguments: &[S]) -> Output {
    let mut command = Command::new(env!("CARGO_BIN_EXE_audit"));
    command.args(arguments).output().expect("the program runs")
}

/// What the program writes to standard output.
fn told<S: AsRef<OsStr>>(arguments: &[S]) -> String {
    let Output { status, stdout, stderr } = run(arguments);
    assert_eq!((status.code(), String::from_utf8_lossy(&stderr).as_ref()), (Some(0), ""));
    String::from_utf8(stdout).expect("text")
}

#[test]
fn without_a_file_the_small_board_is_told() {
    assert_eq!(told::<&str>(&[]), include_str!("../stored/board.txt"));
    assert_eq!(told(&["--html"]), include_str!("../stored/board.html"));
}

#[test]
fn the_texts_of_the_example_tables_are_the_stored_ones() {
    assert_eq!(told(&[path("board")]), include_str!("../stored/board.txt"));
    assert_eq!(told(&[path("blanked")]), include_str!("../stored/blanked.txt"));
    assert_eq!(told(&[path("house")]), include_str!("../stored/house.txt"));
}

#[test]
fn the_page_may_be_asked_for_before_or_after_the_file() {
    let (html, board) = (OsStr::new("--html"), path("board"));
    assert_eq!(told(&[html, board.as_os_str()]), include_str!("../stored/board.html"));
    assert_eq!(told(&[board.as_os_str(), html]), include_str!("../stored/board.html"));
    assert_ne!(told(&[html, path("blanked").as_os_str()]), include_str!("../stored/board.html"));
}

#[test]
fn the_house_notation_has_no_decision() {
    let table = house::table();
    let found = audit::signed(&asked("house").given).expect("a good table");
    assert_eq!(found, (table.clone(), table.unsigned()));
    let told = told(&[path("house")]);
    assert!(told.contains("\nNothing is signed: where the table is silent, nothing is decided.\n"));
    assert!(!told.contains("stands at cell"));
}

#[test]
fn the_document_shows_what_is_read_and_written() {
    let document = concat!(env!("CARGO_MANIFEST_DIR"), "/../../docs/AUDIT.md");
    let document = fs::read_to_string(document).expect("a readable file");
    let shown = |text: &str| {
        let lines: String = text.lines().map(|line| format!("    {line}\n")).collect();
        assert!(document.contains(&format!("\n\n{lines}\n")), "{lines}");
    };
    shown(&file("board"));
    let told: Vec<&str> = include_str!("../stored/blanked.txt").lines().collect();
    let from = |start: &str| told.iter().position(|line| line.starts_with(start)).expect("a line");
    let counts = ["Signed rules", "Signed gotos", "Blanks"].map(|start| told[from(start)]);
    shown(&counts.join("\n"));
    shown(&told[from("state 3")..][..4].join("\n"));
}

#[test]
fn other_arguments_are_refused() {
    let wrong = [&["--text"][..], &["--html", "--html"], &["a", "b"], &[""], &["-"], &["a", "-x"]];
    for wrong in wrong {
        let Output { status, stdout, stderr } = run(wrong);
        assert_eq!((status.code(), stdout.as_slice()), (Some(2), &b""[..]), "{wrong:?}");
        assert_eq!(stderr, b"usage: audit [--html] [FILE]\n", "{wrong:?}");
    }
}
