//! The tables that the tests look at.

use std::fs;
use std::path::{Path, PathBuf};

use audit::{Asked, Packed, Report};
use cases::random::random_case;
use cases::Op;

/// The example tables of the audit.
pub const NAMES: [&str; 3] = ["board", "blanked", "house"];

/// The path of an example table.
pub fn path(name: &str) -> PathBuf {
    Path::new(env!("CARGO_MANIFEST_DIR")).join("tables").join(name).with_extension("txt")
}

/// The text of an example table.
pub fn file(name: &str) -> String {
    fs::read_to_string(path(name)).expect("a readable file")
}

/// An example table as it is asked for.
pub fn asked(name: &str) -> Asked {
    Asked::read(file(name).as_bytes()).expect("a table file")
}

/// The random tables of the seeds below a number that are good.
pub fn random_tables(seeds: u64) -> impl Iterator<Item = Asked> {
    let cases = (0..seeds).map(|seed| random_case(Op::Check, seed, &|_, _| None));
    let asked = cases.map(|case| Asked::case(case).expect("a case of the table check"));
    asked.filter(|asked| Packed::new(asked).is_ok())
}

/// A good table packed, with its report.
pub fn audited(asked: &Asked) -> (Packed, Report) {
    let packed = Packed::new(asked).expect("a good table");
    let report = Report::new(&packed).expect("the cells are those of the table");
    (packed, report)
}
