//! The program `packsheet`: the small board packed into 64 cells with the signing of a sheet.

use crate::said::{Said, OK, TEXT};
use crate::{pack, sheet_read, Grammar, Signing, Sizes};

/// The longest input that is read.
const LONGEST: usize = 65_536;

/// The numbers of the small board.
const SIZES: Sizes = Sizes { terminals: 3, symbols: 6, rules: 5, states: 7 };

/// The rules of the small board: S' to S, S to S E, S to E, E to a, E to b a.
const GRAMMAR: Grammar =
    Grammar { left: &[3, 4, 4, 5, 5], lens: &[1, 2, 1, 1, 2], rights: &[4, 4, 5, 5, 1, 2, 1] };

/// The table of the small board.
#[rustfmt::skip]
const TABLE: [i32; 42] = [
     0,  3,  4, 0, 1, 2,
    -1,  3,  4, 0, 0, 5,
    -3, -3, -3, 0, 0, 0,
    -4, -4, -4, 0, 0, 0,
     0,  6,  0, 0, 0, 0,
    -2, -2, -2, 0, 0, 0,
    -5, -5, -5, 0, 0, 0,
];

/// What the program prints for this input.
pub fn packsheet(input: &[u8]) -> Vec<u8> {
    let printed = match packed(input) {
        Ok(cells) => cells,
        Err(refusal) => format!("refused={}\n", refusal.code),
    };
    printed.into_bytes()
}

/// The lines that tell the packed cells, or the first refusal.
fn packed(input: &[u8]) -> Result<String, Said> {
    if input.len() > LONGEST {
        return Err(Said::new(TEXT, &[]));
    }
    let (mut srule, mut sgoto) = ([0; 7], [0; 3]);
    good(sheet_read(SIZES, input, &mut srule, &mut sgoto))?;
    let (mut base, mut check, mut marks, mut place) = ([0; 64], [0; 64], [0; 64], [0; 7]);
    let signing = Signing { srule: &srule, sgoto: &sgoto };
    let count =
        good(pack(SIZES, GRAMMAR, &TABLE, signing, &mut base, &mut check, &mut marks, &mut place))?;
    let mut text = format!("cells={count}\n");
    for (cell, (base, check)) in base.iter().zip(&check).enumerate().take(count) {
        text += &format!("{cell}={base},{check}\n");
    }
    Ok(text)
}

/// The first value of an OK, or the refusal.
fn good(said: Said) -> Result<usize, Said> {
    if said.code == OK {
        Ok(said.values[0] as usize)
    } else {
        Err(said)
    }
}
