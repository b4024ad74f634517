//! Random sheets: right ones, and ones that are spoilt in every way that a line can be.

use super::dice::Dice;
use super::fault::bad_signing;
use super::grammar::sizes;
use super::signing::any;
use crate::ask::{Ask, Signing, Sizes};
use crate::sheet::{board, sheet_lines, sheet_text};

/// What a value can be turned into; `@` stands for the value itself.
const VALUES: [&str; 22] = [
    "0@",
    "+@",
    "-@",
    " @",
    "@ ",
    "@\r",
    "@0",
    "@x",
    "@=",
    "",
    "0",
    "00",
    "65535",
    "65536",
    "70000",
    "4294967297",
    "18446744073709551617",
    "none",
    "None",
    "nonenone",
    "non",
    "1",
];

/// Sizes for a sheet, with L.
fn sheet_sizes(dice: &mut Dice) -> Sizes {
    let states = dice.within(2, 12);
    Sizes { states, ..sizes(dice) }
}

/// A signing for those sizes, now and then a bad one.
fn sheet_signing(dice: &mut Dice, sizes: &Sizes) -> Signing {
    let mut signing = any(dice, sizes);
    if dice.chance(25) {
        bad_signing(dice, sizes, &mut signing);
    }
    signing
}

/// An asking to read a sheet.
pub fn sheet_read_ask(dice: &mut Dice) -> Ask {
    let sizes = sheet_sizes(dice);
    let signing = sheet_signing(dice, &sizes);
    let text = text(dice, &sizes, &signing);
    let srule = dice.unsigned(sizes.states);
    let sgoto = dice.unsigned(sizes.symbols - sizes.terminals);
    Ask::SheetRead { sizes, signing: Signing { srule, sgoto }, text }
}

/// An asking to write a sheet into a buffer that is long enough or not.
pub fn sheet_write_ask(dice: &mut Dice) -> Ask {
    let sizes = sheet_sizes(dice);
    let signing = sheet_signing(dice, &sizes);
    let length = sheet_text(&sizes, &signing).len();
    let room = match dice.below(10) {
        0 => 0,
        1 => dice.within(0, length),
        2..=3 => length - 1,
        4..=6 => length,
        _ => length + dice.within(1, 30),
    };
    Ask::SheetWrite { sizes, signing, buffer: dice.bytes(room) }
}

/// An input of packsheet: mostly a sheet of the small board, now and then one that is too long.
pub fn packsheet_ask(dice: &mut Dice) -> Ask {
    let sizes = board().sizes;
    let signing = sheet_signing(dice, &sizes);
    let mut text = text(dice, &sizes, &signing);
    if dice.chance(4) {
        let length = *dice.pick(&[65_535, 65_536, 65_537, 65_538]);
        text.resize(length, b'\n');
    }
    Ask::PackSheet { text }
}

/// The text of a sheet, right or spoilt in one place.
fn text(dice: &mut Dice, sizes: &Sizes, signing: &Signing) -> Vec<u8> {
    let mut lines = sheet_lines(sizes, signing);
    for line in &mut lines {
        line.push('\n');
    }
    match dice.below(10) {
        0..=4 => lines.concat().into_bytes(),
        5..=6 => {
            spoil_line(dice, &mut lines);
            lines.concat().into_bytes()
        }
        7..=8 => {
            spoil_order(dice, &mut lines);
            lines.concat().into_bytes()
        }
        _ => spoil_bytes(dice, lines.concat().into_bytes()),
    }
}

/// Spoils the key, the value or the end of one line.
fn spoil_line(dice: &mut Dice, lines: &mut [String]) {
    let at = dice.below(lines.len());
    let Some((key, value)) = lines[at].trim_end().split_once('=') else { return };
    lines[at] = match dice.below(14) {
        0 => format!("{key}={value}"),
        1 => format!("{key}={value}\r\n"),
        2 => format!(" {key}={value}\n"),
        3 => format!("{key} = {value}\n"),
        4 => format!("{}={value}\n", key.to_uppercase()),
        5 => format!("{key}{value}\n"),
        6 => format!("{key}0={value}\n"),
        7 => format!("{}={value}\n", &key[1..]),
        8 => format!("{key}={value}\n\n"),
        _ => format!("{key}={}\n", dice.pick(&VALUES).replace('@', value)),
    };
}

/// Drops, doubles or swaps lines, or adds one.
fn spoil_order(dice: &mut Dice, lines: &mut Vec<String>) {
    let (at, other) = (dice.below(lines.len()), dice.below(lines.len()));
    match dice.below(6) {
        0 => drop(lines.remove(at)),
        1 => lines.insert(at, lines[at].clone()),
        2 => lines.swap(at, other),
        3 => lines[at] = lines[other].clone(),
        4 => lines.push(lines[at].clone()),
        _ => lines.insert(at, "\n".to_string()),
    }
}

/// Cuts the text off, lets bytes follow it, changes one, or gives bytes without any plan.
fn spoil_bytes(dice: &mut Dice, mut text: Vec<u8>) -> Vec<u8> {
    match dice.below(7) {
        0 => text.truncate(text.len() - 1),
        1 => {
            let rest = dice.below(text.len());
            text.truncate(rest);
        }
        2 => text.push(*dice.pick(b"\n\r\0 x")),
        3 => {
            let more = dice.within(1, 5);
            text.extend(dice.bytes(more));
        }
        4 => {
            let at = dice.below(text.len());
            text[at] = dice.bits() as u8;
        }
        5 => {
            let length = dice.within(0, 60);
            text = dice.bytes(length);
        }
        _ => text.clear(),
    }
    text
}
