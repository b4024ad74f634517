//! Calls of the exported functions: the only place with unsafe code.

mod exported;

pub use exported::{ParseWords, Words};

use exported::*;

/// The judgement of grammar, table and signing.
pub fn judge(
    [terminals, symbols, rules, states]: [u32; 4],
    [left, lens, rights]: [&[u32]; 3],
    table: &[i32],
    [srule, sgoto]: [&[u32]; 2],
) -> Words {
    // The function has no precondition: it takes any numbers, and reads each slice within its length.
    unsafe {
        slettrein_judge(
            terminals,
            symbols,
            rules,
            states,
            left.as_ptr(),
            left.len(),
            lens.as_ptr(),
            lens.len(),
            rights.as_ptr(),
            rights.len(),
            table.as_ptr(),
            table.len(),
            srule.as_ptr(),
            srule.len(),
            sgoto.as_ptr(),
            sgoto.len(),
        )
    }
}

/// The table check.
pub fn check(
    [terminals, symbols, rules, states]: [u32; 4],
    [left, lens, rights]: [&[u32]; 3],
    table: &[i32],
    [srule, sgoto]: [&[u32]; 2],
) -> Words {
    // As above.
    unsafe {
        slettrein_check(
            terminals,
            symbols,
            rules,
            states,
            left.as_ptr(),
            left.len(),
            lens.as_ptr(),
            lens.len(),
            rights.as_ptr(),
            rights.len(),
            table.as_ptr(),
            table.len(),
            srule.as_ptr(),
            srule.len(),
            sgoto.as_ptr(),
            sgoto.len(),
        )
    }
}

/// Packing into the four lent arrays.
pub fn pack(
    [terminals, symbols, rules, states]: [u32; 4],
    [left, lens, rights]: [&[u32]; 3],
    table: &[i32],
    [srule, sgoto]: [&[u32]; 2],
    [base, check]: [&mut [i32]; 2],
    [marks, place]: [&mut [u32]; 2],
) -> Words {
    // As above; what is lent is written within its length, and no two of the slices overlap.
    unsafe {
        slettrein_pack(
            terminals,
            symbols,
            rules,
            states,
            left.as_ptr(),
            left.len(),
            lens.as_ptr(),
            lens.len(),
            rights.as_ptr(),
            rights.len(),
            table.as_ptr(),
            table.len(),
            srule.as_ptr(),
            srule.len(),
            sgoto.as_ptr(),
            sgoto.len(),
            base.as_mut_ptr(),
            base.len(),
            check.as_mut_ptr(),
            check.len(),
            marks.as_mut_ptr(),
            marks.len(),
            place.as_mut_ptr(),
            place.len(),
        )
    }
}

/// A read asked for by itself.
pub fn read(
    [terminals, symbols, rules]: [u32; 3],
    [base, check]: [&[i32]; 2],
    x: usize,
    a: u32,
) -> Words {
    // As above.
    unsafe {
        slettrein_read(
            terminals,
            symbols,
            rules,
            base.as_ptr(),
            base.len(),
            check.as_ptr(),
            check.len(),
            x,
            a,
        )
    }
}

/// Parsing with the filled table; the stack and the list are lent.
pub fn plain(
    [terminals, symbols, rules, states]: [u32; 4],
    [left, lens, rights]: [&[u32]; 3],
    table: &[i32],
    [srule, sgoto]: [&[u32]; 2],
    tokens: &[u32],
    limit: u32,
    [stack, list]: [&mut [u32]; 2],
) -> ParseWords {
    // As above.
    unsafe {
        slettrein_plain(
            terminals,
            symbols,
            rules,
            states,
            left.as_ptr(),
            left.len(),
            lens.as_ptr(),
            lens.len(),
            rights.as_ptr(),
            rights.len(),
            table.as_ptr(),
            table.len(),
            srule.as_ptr(),
            srule.len(),
            sgoto.as_ptr(),
            sgoto.len(),
            tokens.as_ptr(),
            tokens.len(),
            limit,
            stack.as_mut_ptr(),
            stack.len(),
            list.as_mut_ptr(),
            list.len(),
        )
    }
}

/// Parsing with cells; the stack and the list are lent.
pub fn parse(
    [terminals, symbols, rules]: [u32; 3],
    [left, lens, rights]: [&[u32]; 3],
    [base, check]: [&[i32]; 2],
    tokens: &[u32],
    limit: u32,
    [stack, list]: [&mut [u32]; 2],
) -> ParseWords {
    // As above.
    unsafe {
        slettrein_parse(
            terminals,
            symbols,
            rules,
            left.as_ptr(),
            left.len(),
            lens.as_ptr(),
            lens.len(),
            rights.as_ptr(),
            rights.len(),
            base.as_ptr(),
            base.len(),
            check.as_ptr(),
            check.len(),
            tokens.as_ptr(),
            tokens.len(),
            limit,
            stack.as_mut_ptr(),
            stack.len(),
            list.as_mut_ptr(),
            list.len(),
        )
    }
}

/// Reading a signing sheet into the lent signing.
pub fn sheet_read(
    [terminals, symbols, rules, states]: [u32; 4],
    text: &[u8],
    [srule, sgoto]: [&mut [u32]; 2],
) -> Words {
    // As above.
    unsafe {
        slettrein_sheet_read(
            terminals,
            symbols,
            rules,
            states,
            text.as_ptr(),
            text.len(),
            srule.as_mut_ptr(),
            srule.len(),
            sgoto.as_mut_ptr(),
            sgoto.len(),
        )
    }
}

/// Writing a signing sheet into the lent buffer.
pub fn sheet_write(
    [terminals, symbols, rules, states]: [u32; 4],
    [srule, sgoto]: [&[u32]; 2],
    buffer: &mut [u8],
) -> Words {
    // As above.
    unsafe {
        slettrein_sheet_write(
            terminals,
            symbols,
            rules,
            states,
            srule.as_ptr(),
            srule.len(),
            sgoto.as_ptr(),
            sgoto.len(),
            buffer.as_mut_ptr(),
            buffer.len(),
        )
    }
}

/// What packsheet prints for a text, as far as the lent buffer holds it, and how long that is.
pub fn packsheet(text: &[u8], out: &mut [u8]) -> usize {
    // As above.
    unsafe { slettrein_packsheet(text.as_ptr(), text.len(), out.as_mut_ptr(), out.len()) }
}

/// The house notation's grammar and table, into the lent arrays.
pub fn house([left, lens, rights]: [&mut [u32]; 3], table: &mut [i32]) -> Words {
    // As above.
    unsafe {
        slettrein_house(
            left.as_mut_ptr(),
            left.len(),
            lens.as_mut_ptr(),
            lens.len(),
            rights.as_mut_ptr(),
            rights.len(),
            table.as_mut_ptr(),
            table.len(),
        )
    }
}
