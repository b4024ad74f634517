//! Random good signings of a table.

use super::dice::Dice;
use super::table::{nothing_signed, unsigned};
use crate::ask::{Given, Signing, Sizes};

/// A random grammar, table and signing that the numbers 1 to 4 pass.
pub fn good(dice: &mut Dice) -> Given {
    let mut given = unsigned(dice);
    match dice.below(10) {
        0..=1 => {}
        2..=5 => given.signing = commonest(dice, &given, 85),
        6 => given.signing = idle(dice, &given),
        7 => given.signing = any(dice, &given.sizes),
        _ => {
            given.signing = commonest(dice, &given, 90);
            let stray = dice.below(given.sizes.states);
            given.signing.srule[stray] = any_rule(dice, &given.sizes);
        }
    }
    if dice.chance(25) {
        blank_signed(&mut given);
    }
    given
}

/// Signs the commonest rule of a row and the commonest target of a column, each with that chance.
fn commonest(dice: &mut Dice, given: &Given, percent: usize) -> Signing {
    let Sizes { terminals, symbols, states, .. } = given.sizes;
    let mut signing = nothing_signed(&given.sizes);
    for s in 0..states {
        let row = &given.table[s * symbols..s * symbols + terminals];
        let rule = most_often(row.iter().filter(|e| **e < -1).map(|e| e.unsigned_abs()));
        if dice.chance(percent) {
            signing.srule[s] = rule;
        }
    }
    for a in terminals + 1..symbols {
        let column = given.table.iter().skip(a).step_by(symbols);
        let target = most_often(column.filter(|e| **e > 0).map(|e| *e as u32));
        if dice.chance(percent) && !signing.sgoto.contains(&target) {
            signing.sgoto[a - terminals] = target;
        }
    }
    signing
}

/// The number that comes most often, the least of several, or 0.
fn most_often(numbers: impl Iterator<Item = u32>) -> u32 {
    let mut sorted: Vec<u32> = numbers.collect();
    sorted.sort_unstable();
    let mut best = (0, 0);
    for run in sorted.chunk_by(|a, b| a == b) {
        if run.len() > best.0 {
            best = (run.len(), run[0]);
        }
    }
    best.1
}

/// Signs only rows and columns that have no blank entry, so that nothing is filled.
fn idle(dice: &mut Dice, given: &Given) -> Signing {
    let Sizes { terminals, symbols, states, .. } = given.sizes;
    let mut signing = any(dice, &given.sizes);
    for s in 0..states {
        if given.table[s * symbols..s * symbols + terminals].contains(&0) {
            signing.srule[s] = 0;
        }
    }
    for a in terminals + 1..symbols {
        if given.table.iter().skip(a).step_by(symbols).any(|e| *e == 0) {
            signing.sgoto[a - terminals] = 0;
        }
    }
    signing
}

/// Signs any rules and any distinct states.
pub fn any(dice: &mut Dice, sizes: &Sizes) -> Signing {
    let mut signing = nothing_signed(sizes);
    for rule in &mut signing.srule {
        if dice.chance(60) {
            *rule = any_rule(dice, sizes);
        }
    }
    for k in 1..signing.sgoto.len() {
        let target = dice.within(1, sizes.states - 1) as u32;
        if dice.chance(60) && !signing.sgoto.contains(&target) {
            signing.sgoto[k] = target;
        }
    }
    signing
}

/// A rule that can be signed, or 0 if there is none.
fn any_rule(dice: &mut Dice, sizes: &Sizes) -> u32 {
    match sizes.rules {
        0..=1 => 0,
        rules => dice.within(2, rules) as u32,
    }
}

/// Blanks every entry that the signing fills again.
fn blank_signed(given: &mut Given) {
    let Sizes { terminals, symbols, .. } = given.sizes;
    for (k, entry) in given.table.iter_mut().enumerate() {
        let (s, a) = (k / symbols, k % symbols);
        let signed = match a < terminals {
            true => -(given.signing.srule[s] as i32),
            false => given.signing.sgoto[a - terminals] as i32,
        };
        if *entry == signed {
            *entry = 0;
        }
    }
}
