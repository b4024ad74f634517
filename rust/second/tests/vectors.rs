//! Every case of the vectors folder, run through the crate and compared with what stands after its `>` marks.

mod form;

use std::fs;

use form::{cases, line, Case, Line};
use second::{check, pack, packsheet, parse, plain, read, sheet_read, sheet_write};
use second::{Grammar, Said, Signing, Sizes};

/// The grammar of a case.
struct Rules {
    left: Vec<u32>,
    lens: Vec<u32>,
    rights: Vec<u32>,
}

impl Rules {
    /// Takes the grammar out of a case.
    fn of(case: &Case) -> Rules {
        Rules { left: case.list("left"), lens: case.list("lens"), rights: case.list("rights") }
    }

    /// The grammar as the crate takes it.
    fn lent(&self) -> Grammar<'_> {
        Grammar { left: &self.left, lens: &self.lens, rights: &self.rights }
    }
}

/// The numbers of `dims` where all four are given.
fn sizes(case: &Case) -> Sizes {
    let dims = case.list("dims");
    assert_eq!(dims.len(), 4, "case {}", case.name);
    Sizes { terminals: dims[0], symbols: dims[1], rules: dims[2], states: dims[3] }
}

/// The numbers of `dims` where the states are not given.
fn three(case: &Case) -> (usize, usize, usize) {
    let dims = case.list("dims");
    assert_eq!(dims.len(), 3, "case {}", case.name);
    (dims[0], dims[1], dims[2])
}

/// The lines of an answer, followed by those of the lent arrays.
fn lines(said: Said, arrays: Vec<Line>) -> Vec<Line> {
    let mut lines = vec![line("code", &[said.code]), line("values", &said.values)];
    lines.extend(said.moves.map(|moves| line("moves", &[moves])));
    lines.extend(arrays);
    lines
}

/// The lines that the crate says for a case.
fn answer(case: &Case) -> Vec<Line> {
    match case.op.as_str() {
        "pack" => answer_pack(case),
        "read" => answer_read(case),
        "parse" => answer_parse(case),
        "plain" => answer_plain(case),
        "check" => answer_check(case),
        "sheet_read" => answer_sheet_read(case),
        "sheet_write" => answer_sheet_write(case),
        "packsheet" => vec![line("text", &packsheet(&case.list("text")))],
        op => panic!("case {}: op {op}", case.name),
    }
}

/// The lines that the packer says.
fn answer_pack(case: &Case) -> Vec<Line> {
    let (rules, table) = (Rules::of(case), case.list("table"));
    let (srule, sgoto) = (case.list("srule"), case.list("sgoto"));
    let signing = Signing { srule: &srule, sgoto: &sgoto };
    let (mut base, mut check) = (case.list("base"), case.list("check"));
    let (mut marks, mut place) = (case.list("marks"), case.list("place"));
    let lent = (&mut base, &mut check, &mut marks, &mut place);
    let said = pack(sizes(case), rules.lent(), &table, signing, lent.0, lent.1, lent.2, lent.3);
    let cells = [line("base", &base), line("check", &check)];
    lines(said, [&cells[..], &[line("marks", &marks), line("place", &place)]].concat())
}

/// The lines that a read says.
fn answer_read(case: &Case) -> Vec<Line> {
    let (terminals, symbols, rules) = three(case);
    let (base, check, at) = (case.list("base"), case.list("check"), case.list("at"));
    lines(read(terminals, symbols, rules, &base, &check, at[0], at[1]), Vec::new())
}

/// The lines that the parser of cells says.
fn answer_parse(case: &Case) -> Vec<Line> {
    let ((t, m, g), rules) = (three(case), Rules::of(case));
    let (base, check, tokens) = (case.list("base"), case.list("check"), case.list("tokens"));
    let limit = case.list("limit")[0];
    let (mut stack, mut list) = (case.list("stack"), case.list("list"));
    let lent = (&mut stack, &mut list);
    let said = parse(t, m, g, rules.lent(), &base, &check, &tokens, limit, lent.0, lent.1);
    lines(said, vec![line("stack", &stack), line("list", &list)])
}

/// The lines that the plain machine says.
fn answer_plain(case: &Case) -> Vec<Line> {
    let (rules, table) = (Rules::of(case), case.list("table"));
    let (srule, sgoto) = (case.list("srule"), case.list("sgoto"));
    let signing = Signing { srule: &srule, sgoto: &sgoto };
    let (tokens, limit) = (case.list("tokens"), case.list("limit")[0]);
    let (mut stack, mut list) = (case.list("stack"), case.list("list"));
    let lent = (&mut stack, &mut list);
    let said = plain(sizes(case), rules.lent(), &table, signing, &tokens, limit, lent.0, lent.1);
    lines(said, vec![line("stack", &stack), line("list", &list)])
}

/// The lines that the table check says.
fn answer_check(case: &Case) -> Vec<Line> {
    let (rules, table) = (Rules::of(case), case.list("table"));
    let (srule, sgoto) = (case.list("srule"), case.list("sgoto"));
    let signing = Signing { srule: &srule, sgoto: &sgoto };
    lines(check(sizes(case), rules.lent(), &table, signing), Vec::new())
}

/// The lines that the sheet reader says.
fn answer_sheet_read(case: &Case) -> Vec<Line> {
    let (mut srule, mut sgoto) = (case.list("srule"), case.list("sgoto"));
    let said = sheet_read(sizes(case), &case.list("text"), &mut srule, &mut sgoto);
    lines(said, vec![line("srule", &srule), line("sgoto", &sgoto)])
}

/// The lines that the sheet writer says.
fn answer_sheet_write(case: &Case) -> Vec<Line> {
    let (srule, sgoto, mut buffer) = (case.list("srule"), case.list("sgoto"), case.list("buffer"));
    let said = sheet_write(sizes(case), Signing { srule: &srule, sgoto: &sgoto }, &mut buffer);
    lines(said, vec![line("buffer", &buffer)])
}

/// Runs all cases of a file and asserts that it holds so many.
fn run(file: &str, many: usize) {
    let folder = concat!(env!("CARGO_MANIFEST_DIR"), "/../../vectors");
    let text = fs::read_to_string(format!("{folder}/{file}.txt")).expect("a file of cases");
    let cases = cases(&text);
    assert_eq!(text.lines().filter(|line| line.starts_with("case ")).count(), many);
    assert_eq!(cases.len(), many);
    for case in &cases {
        assert!(!case.said.is_empty(), "case {} of {file} says nothing", case.name);
        assert_eq!(answer(case), case.said, "case {} of {file}", case.name);
    }
}

#[test]
fn board() {
    run("board", 29);
}

#[test]
fn packing() {
    run("pack", 220);
}

#[test]
fn reading() {
    run("read", 220);
}

#[test]
fn parsing_with_cells() {
    run("parse", 220);
}

#[test]
fn parsing_with_the_plain_table() {
    run("plain", 220);
}

#[test]
fn checking() {
    run("check", 220);
}

#[test]
fn sheets() {
    run("sheet", 220);
}

#[test]
fn the_program() {
    run("packsheet", 220);
}
