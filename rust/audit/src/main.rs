//! Writes the audit report of a table to standard output.

#![forbid(unsafe_code)]

use std::ffi::{OsStr, OsString};
use std::fs::File;
use std::io::{self, BufReader, Write};
use std::process::ExitCode;

use audit::{page, refused, text, Asked, Packed, Report};

/// How the program is called.
const USAGE: &str = "usage: audit [--html] [FILE]";

/// What the arguments ask for: the small board's report or that of a file's table, as text or as a page.
#[derive(Default)]
struct Wish {
    file: Option<OsString>,
    html: bool,
}

/// Writes the report that the arguments ask for: status 1 if that fails, 2 if they are malformed.
fn main() -> ExitCode {
    let Some(wish) = wish(std::env::args_os().skip(1)) else {
        eprintln!("{USAGE}");
        return ExitCode::from(2);
    };
    match report(&wish).and_then(|told| write(&told)) {
        Ok(()) => ExitCode::SUCCESS,
        Err(sentence) => {
            eprintln!("audit: {sentence}");
            ExitCode::from(1)
        }
    }
}

/// The wish of the arguments, each of which may stand once and in any order.
fn wish(arguments: impl Iterator<Item = OsString>) -> Option<Wish> {
    let mut wish = Wish::default();
    for argument in arguments {
        if argument == "--html" && !wish.html {
            wish.html = true;
        } else if !is_option(&argument) && wish.file.is_none() {
            wish.file = Some(argument);
        } else {
            return None;
        }
    }
    Some(wish)
}

/// Whether an argument cannot be the name of a file.
fn is_option(argument: &OsStr) -> bool {
    argument.is_empty() || argument.as_encoded_bytes().starts_with(b"-")
}

/// The report of what is wished for, or a sentence on why there is none.
fn report(wish: &Wish) -> Result<String, String> {
    let name = wish.file.as_deref().map_or("the small board".into(), OsStr::to_string_lossy);
    let asked = match &wish.file {
        None => Asked::board(),
        Some(file) => asked(file).map_err(|why| format!("{name} cannot be read: {why}"))?,
    };
    let packed = Packed::new(&asked)
        .map_err(|refusal| format!("{name} is refused with {}", refused(&refusal)))?;
    let report = Report::new(&packed).map_err(|astray| format!("{name}: {astray}"))?;
    Ok(if wish.html { page(&packed, &report) } else { text(&packed, &report) })
}

/// The table of a file.
fn asked(file: &OsStr) -> Result<Asked, String> {
    let from = File::open(file).map_err(|error| format!("{error}."))?;
    Asked::read(BufReader::new(from)).map_err(|unread| unread.to_string())
}

/// Writes a report to standard output.
fn write(told: &str) -> Result<(), String> {
    let mut out = io::stdout().lock();
    let done = out.write_all(told.as_bytes()).and_then(|()| out.flush());
    done.map_err(|error| format!("the report cannot be written: {error}."))
}
