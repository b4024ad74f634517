//! Every vector file is read and written again, and gives the same bytes, comments apart.

use std::fs;
use std::io::BufReader;
use std::path::PathBuf;

use cases::{read, write, Op};

/// The paths of all vector files.
fn vector_files() -> Vec<PathBuf> {
    let folder = concat!(env!("CARGO_MANIFEST_DIR"), "/../../vectors");
    let files = fs::read_dir(folder).expect("the folder of vectors");
    let paths = files.map(|file| file.expect("a file of that folder").path());
    paths.filter(|path| path.extension().is_some_and(|end| end == "txt")).collect()
}

/// A file's text without its comments.
fn without_comments(text: &str) -> String {
    text.split_inclusive('\n').filter(|line| !line.starts_with('#')).collect()
}

/// Reads a file and writes it again with the answers that it expects.
fn again(text: &str) -> String {
    let entries = read(BufReader::new(text.as_bytes()));
    let texts = entries.map(|entry| {
        let entry = entry.expect("a well-formed case");
        let answer = entry.answer().expect("a well-formed answer");
        write(&entry.case, Some(&answer))
    });
    texts.collect()
}

#[test]
fn every_file_comes_back_byte_for_byte() {
    let files = vector_files();
    assert_eq!(files.len(), 8);
    for path in files {
        let text = fs::read_to_string(&path).expect("a readable file");
        assert!(again(&text) == without_comments(&text), "{} differs", path.display());
    }
}

#[test]
fn every_operation_stands_in_some_file() {
    let mut seen = Vec::new();
    for path in vector_files() {
        let text = fs::read_to_string(&path).expect("a readable file");
        let entries = read(BufReader::new(text.as_bytes()));
        seen.extend(entries.map(|entry| entry.expect("a well-formed case").case.ask.op()));
    }
    assert!(Op::ALL.iter().all(|op| seen.contains(op)));
    assert_eq!(seen.len(), 1_569);
}

#[test]
fn a_changed_number_is_noticed() {
    let files = vector_files();
    let board = files.iter().find(|path| path.ends_with("board.txt")).expect("the board");
    let text = fs::read_to_string(board).expect("a readable file");
    let changed = text.replacen("> values 21", "> values 22", 1);
    assert!(again(&changed) != without_comments(&text));
}
