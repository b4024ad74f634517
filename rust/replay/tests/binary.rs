//! The binary: what it writes, and how it refuses malformed cases and arguments.

use std::io::Write;
use std::process::{Command, Output, Stdio};

use cases::{write, Op};
use replay::random_case;

/// A case of the table check without its answer and its `end`.
const CASE: &str = "case one\nop check\ndims 2 4 2 2\nleft 2 3\nlens 1 0\nrights 3\n\
table -2 0 0 1 -1 0 0 0\nsrule 0 0\nsgoto 0 0\n";

/// Runs the binary with these arguments and this input.
fn run(arguments: &[&str], input: &str) -> Output {
    let mut command = Command::new(env!("CARGO_BIN_EXE_replay"));
    command.args(arguments).stdin(Stdio::piped()).stdout(Stdio::piped()).stderr(Stdio::piped());
    let mut child = command.spawn().expect("the binary starts");
    let mut stdin = child.stdin.take().expect("a pipe");
    let input = input.to_string();
    let writer = std::thread::spawn(move || stdin.write_all(input.as_bytes()));
    let output = child.wait_with_output().expect("the binary ends");
    let _ = writer.join().expect("the writer ends");
    output
}

/// The standard output and the standard error of a run, and its status.
fn outcome(arguments: &[&str], input: &str) -> (String, String, Option<i32>) {
    let Output { status, stdout, stderr } = run(arguments, input);
    let text = |bytes| String::from_utf8(bytes).expect("text");
    (text(stdout), text(stderr), status.code())
}

/// Makes sure that malformed cases end with this message, after this output.
fn malformed(input: &str, stdout: &str, stderr: &str) {
    for arguments in [&[][..], &["--second"]] {
        let found = outcome(arguments, input);
        assert_eq!((found.1.as_str(), found.2), (stderr, Some(1)));
        if arguments.is_empty() {
            assert_eq!(found.0, stdout);
        }
    }
}

#[test]
fn answers_take_the_place_of_those_in_the_file() {
    let input = format!("# a comment\n{CASE}> code 6\n> values 0 2\n> rubbish\nend\n");
    let second = format!("{CASE}> code 0\n> values\nend\n");
    assert_eq!(outcome(&["--second"], &input), (second, String::new(), Some(0)));
    let nothing = (String::new(), String::new(), Some(0));
    assert_eq!(outcome(&[], ""), nothing);
    assert_eq!(outcome(&["--second"], ""), nothing);
}

#[test]
fn malformed_cases_end_with_the_line_and_the_reason() {
    malformed("case one\nop cheque\n", "", "replay: line 2: unknown op `cheque`\n");
    malformed(CASE, "", "replay: line 10: missing `end`\n");
    malformed("\n", "", "replay: line 1: `case` expected, `` found\n");
    let number = CASE.replace("lens 1 0", "lens 1 4294967296");
    let reason = "replay: line 5: `lens`: `4294967296` does not fit its type\n";
    malformed(&number, "", reason);
    let first = "case a\nop packsheet\ntext 1\n";
    let input = format!("{first}end\ncase b\nop packsheet\ncase c\n");
    let answered = format!("{first}> text 114 101 102 117 115 101 100 61 49 53 10\nend\n");
    malformed(&input, &answered, "replay: line 7: a case inside a case\n");
}

#[test]
fn wrong_arguments_end_with_the_usage() {
    let wrong: [&[&str]; 10] = [
        &["--first"],
        &["second"],
        &["--second", "--second"],
        &["--second", "cases.txt"],
        &["--random"],
        &["--random", "1"],
        &["--random", "x", "1"],
        &["--random", "1", "-1"],
        &["--random", "1", "1", "pick"],
        &["--random", "1", "1", "pack", "read"],
    ];
    for arguments in wrong {
        let (stdout, stderr, status) = outcome(arguments, "");
        assert!(stderr.starts_with("usage: replay "), "{arguments:?}: {stderr}");
        assert_eq!((stdout.as_str(), status), ("", Some(2)), "{arguments:?}");
    }
}

#[test]
fn random_cases_are_those_of_their_seeds() {
    for op in Op::ALL {
        let texts = (7..10).map(|seed| write(&random_case(op, seed), None));
        let (stdout, stderr, status) = outcome(&["--random", "7", "3", op.name()], "");
        assert_eq!((stdout, stderr, status), (texts.collect(), String::new(), Some(0)));
    }
    let mixed = outcome(&["--random", "16", "16"], "").0;
    for op in Op::ALL {
        let line = format!("op {}\n", op.name());
        assert_eq!(mixed.matches(&line).count(), 2, "{line}");
    }
}

#[test]
fn random_cases_can_be_answered() {
    let cases = outcome(&["--random", "5", "40"], "").0;
    let (answered, stderr, status) = outcome(&["--second"], &cases);
    assert_eq!((stderr.as_str(), status), ("", Some(0)));
    assert_eq!(answered.matches("\nend\n").count(), 40);
    assert_eq!(outcome(&["--second"], &answered).0, answered);
}
