//! Random cells: packed ones, damaged ones, and ones without any plan.

use super::dice::Dice;
use super::signing::good;
use super::{Packed, Packer};
use crate::ask::{Ask, Cells, Counts, Given};

/// As many cells as any small example needs.
const PLENTY: usize = 4_096;

/// Random W for packing: just enough, one less, more, or far too few.
pub fn width(dice: &mut Dice, given: &Given, packer: Packer) -> usize {
    let Some(packed) = packer(given, PLENTY) else {
        return dice.within(2, 40);
    };
    match dice.below(20) {
        0 => 0,
        1 => dice.within(1, 3),
        2..=3 => packed.count - 1,
        4 => dice.within(2, packed.count),
        5..=10 => packed.count,
        _ => packed.count + dice.within(1, 30),
    }
}

/// The cells of a packed example with a few free ones at the end, or nothing if it cannot be packed.
pub fn packed(dice: &mut Dice, given: &Given, packer: Packer) -> Option<Packed> {
    let mut packed = packer(given, PLENTY)?;
    let width = packed.count + *dice.pick(&[0, 0, 1, 2, 10]);
    packed.cells.base.truncate(width);
    packed.cells.check.truncate(width);
    Some(packed)
}

/// Puts strange numbers in a few cells, often in one of those that are near to what is read.
pub fn damage(dice: &mut Dice, counts: &Counts, cells: &mut Cells, near: &[usize]) {
    for _ in 0..dice.within(1, 6) {
        let at = damaged_cell(dice, counts, cells, near);
        let number = strange(dice, counts, cells.base.len());
        match dice.chance(60) {
            true => cells.base[at] = number,
            false => cells.check[at] = number,
        }
    }
}

/// One of the near cells, one in which an entry stands, or any.
fn damaged_cell(dice: &mut Dice, counts: &Counts, cells: &Cells, near: &[usize]) -> usize {
    let width = cells.base.len();
    let entries = 0..counts.symbols as i32;
    let written: Vec<usize> = (0..width).filter(|t| entries.contains(&cells.check[*t])).collect();
    match dice.below(10) {
        0..=3 if !near.is_empty() => *dice.pick(near),
        4..=6 if !written.is_empty() => *dice.pick(&written),
        _ => dice.below(width),
    }
}

/// A number that means something else, or is at the edge of its type.
fn strange(dice: &mut Dice, counts: &Counts, width: usize) -> i32 {
    let (rules, width) = (counts.rules as i32, width as i32);
    match dice.below(5) {
        0 => *dice.pick(&[i32::MIN, i32::MIN + 1, i32::MAX, i32::MAX - 1, -65_536, 65_535]),
        1 => *dice.pick(&[-rules, -rules - 1, -rules - width, -rules - width + 2, width - 1]),
        2 => *dice.pick(&[-2, -1, -1, 0, 1]),
        3 => dice.below(counts.symbols + 1) as i32,
        _ => dice.within(0, 2 * width as usize) as i32 - width,
    }
}

/// Cells without any plan.
pub fn wild(dice: &mut Dice, counts: &Counts) -> Cells {
    let width = dice.within(2, 40);
    let mut cells = Cells::default();
    for _ in 0..width {
        let base = dice.within(0, 2 * width) as i32 - (width / 2 + counts.rules) as i32;
        let check = dice.within(0, counts.symbols + counts.rules) as i32 - counts.rules as i32;
        cells.base.push(base);
        cells.check.push(check);
    }
    cells
}

/// A single read, mostly of a state's cell and of a symbol that is found, in part of damaged cells.
pub fn read_ask(dice: &mut Dice, packer: Packer) -> Ask {
    let given = good(dice);
    let counts = given.sizes.counts();
    let (mut cells, place) = match packed(dice, &given, packer) {
        Some(packed) if dice.chance(85) => (packed.cells, packed.place),
        _ => (wild(dice, &counts), vec![0]),
    };
    let (mut x, mut a) = asked(dice, &counts, &cells, &place);
    let mut cell = found(&counts, &cells, x, a);
    for _ in 0..*dice.pick(&[0, 0, 4, 8]) {
        if cell.is_none() {
            (x, a) = asked(dice, &counts, &cells, &place);
            cell = found(&counts, &cells, x, a);
        }
    }
    if dice.chance(50) {
        let mut near: Vec<usize> = [x, x.saturating_add(1), a.saturating_mul(2)].into();
        near.extend(cell);
        near.retain(|at| *at < cells.base.len());
        damage(dice, &counts, &mut cells, &near);
    }
    Ask::Read { counts, cells, x, a }
}

/// A cell, mostly of a state, and a symbol, now and then ones that there are not.
fn asked(dice: &mut Dice, counts: &Counts, cells: &Cells, place: &[u32]) -> (usize, usize) {
    let width = cells.base.len();
    let x = match dice.below(10) {
        0..=6 => *dice.pick(place) as usize,
        7..=8 => dice.below(width),
        _ => *dice.pick(&[width - 1, width, width + 1, usize::MAX - 1, usize::MAX]),
    };
    let a = match dice.below(20) {
        0 => *dice.pick(&[counts.symbols, counts.symbols + 1, 513, usize::MAX]),
        1..=3 => 0,
        _ => dice.below(counts.symbols),
    };
    (x, a)
}

/// The cell at which the symbol is found from the base of cell x, if it is.
fn found(counts: &Counts, cells: &Cells, x: usize, a: usize) -> Option<usize> {
    let own = if a < counts.terminals { x } else { x.checked_add(1)? };
    let base = usize::try_from(*cells.base.get(own)?).ok()?;
    let t = base.checked_add(a.checked_mul(2)?)?;
    (a < counts.symbols && *cells.check.get(t)? == a as i32).then_some(t)
}
