//! Reads cases on standard input and writes them again with answers, or writes random cases.

#![forbid(unsafe_code)]

use std::io::{self, BufRead, BufWriter, Write};
use std::process::ExitCode;

use cases::{read, write, Fault, Op};
use replay::{random_case, Product, Program, Second};

/// How the program is called.
const USAGE: &str = "usage: replay [--second] < cases\n       replay --random SEED COUNT [OP]";

/// What the arguments ask for.
enum Wish {
    Answers(&'static dyn Program),
    Random { seed: u64, count: u64, op: Option<Op> },
}

/// Why the program ends early.
enum Halt {
    Cases(Fault),
    Output(io::Error),
}

/// Does what the arguments ask for: status 1 if the cases are malformed, 2 if the arguments are.
fn main() -> ExitCode {
    let arguments: Vec<String> = std::env::args().skip(1).collect();
    let words: Vec<&str> = arguments.iter().map(String::as_str).collect();
    let Some(wish) = wish(&words) else {
        eprintln!("{USAGE}");
        return ExitCode::from(2);
    };
    let mut out = BufWriter::new(io::stdout().lock());
    let done = match wish {
        Wish::Answers(program) => answer_all(program, io::stdin().lock(), &mut out),
        Wish::Random { seed, count, op } => write_random(seed, count, op, &mut out),
    };
    match done.and_then(|()| out.flush().map_err(Halt::Output)) {
        Ok(()) => ExitCode::SUCCESS,
        Err(Halt::Output(error)) => {
            eprintln!("replay: standard output: {error}");
            ExitCode::from(1)
        }
        Err(Halt::Cases(fault)) => {
            eprintln!("replay: {fault}");
            ExitCode::from(1)
        }
    }
}

/// What the arguments ask for, if they are well formed.
fn wish(arguments: &[&str]) -> Option<Wish> {
    match arguments {
        [] => Some(Wish::Answers(&Product)),
        ["--second"] => Some(Wish::Answers(&Second)),
        ["--random", seed, count, rest @ ..] => {
            let (seed, count) = (seed.parse().ok()?, count.parse().ok()?);
            let op = match rest {
                [] => None,
                [name] => Some(Op::named(name)?),
                _ => return None,
            };
            Some(Wish::Random { seed, count, op })
        }
        _ => None,
    }
}

/// Writes each case again with the program's answer.
fn answer_all(program: &dyn Program, from: impl BufRead, out: &mut impl Write) -> Result<(), Halt> {
    for entry in read(from) {
        let case = entry.map_err(Halt::Cases)?.case;
        let answer = program.answer(&case.ask);
        put(out, &write(&case, Some(&answer)))?;
    }
    Ok(())
}

/// Writes random cases of the operation, or of each in turn, from the seed and those that follow it.
fn write_random(seed: u64, count: u64, op: Option<Op>, out: &mut impl Write) -> Result<(), Halt> {
    for k in 0..count {
        let seed = seed.wrapping_add(k);
        let op = op.unwrap_or(Op::ALL[(seed % 8) as usize]);
        put(out, &write(&random_case(op, seed), None))?;
    }
    Ok(())
}

/// Writes a text to standard output.
fn put(out: &mut impl Write, text: &str) -> Result<(), Halt> {
    out.write_all(text.as_bytes()).map_err(Halt::Output)
}
