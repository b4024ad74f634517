//! Random tables with good entries: LR tables, changed ones, and ones without any plan.

use super::dice::Dice;
use super::grammar::{grammar, sizes};
use crate::ask::{Given, Signing, Sizes};
use crate::lr::lr_table;
use crate::sheet::board;

/// A random grammar with a table of good entries, unsigned.
pub fn unsigned(dice: &mut Dice) -> Given {
    let planned = dice.chance(75);
    let mut given = if planned { lr_given(dice) } else { wild_given(dice) };
    if planned && dice.chance(40) {
        change(dice, &mut given);
    }
    given
}

/// A random grammar with its LR table, mostly one of some states; the small board if none is found.
fn lr_given(dice: &mut Dice) -> Given {
    let fewest = *dice.pick(&[2, 5, 6, 7]);
    for _ in 0..20 {
        let mut sizes = sizes(dice);
        let grammar = grammar(dice, &sizes);
        let most = if sizes.symbols > 12 { 60 } else { 12 };
        let everywhere = dice.chance(30);
        let table = lr_table(&sizes, &grammar, most, everywhere).unwrap_or_default();
        sizes.states = table.len() / sizes.symbols;
        if sizes.states >= fewest {
            let signing = nothing_signed(&sizes);
            return Given { sizes, grammar, table, signing };
        }
    }
    let board = board();
    Given { signing: nothing_signed(&board.sizes), ..board }
}

/// A random grammar with a random table of good entries, thick or thin.
fn wild_given(dice: &mut Dice) -> Given {
    let mut sizes = sizes(dice);
    sizes.states = dice.within(2, 12);
    let grammar = grammar(dice, &sizes);
    let blank = *dice.pick(&[20, 50, 70, 90]);
    let mut table = Vec::new();
    for _ in 0..sizes.states {
        table.extend(wild_row(dice, &sizes, blank));
    }
    let signing = nothing_signed(&sizes);
    Given { sizes, grammar, table, signing }
}

/// The signing that signs nothing.
pub fn nothing_signed(sizes: &Sizes) -> Signing {
    Signing { srule: vec![0; sizes.states], sgoto: vec![0; sizes.symbols - sizes.terminals] }
}

/// A random row of good entries, of which that many in a hundred are blank; in some rows an entry is
/// often the one before it again, so that several edges lead to one state.
fn wild_row(dice: &mut Dice, sizes: &Sizes, blank: usize) -> Vec<i32> {
    let again = *dice.pick(&[0, 60]);
    let mut row = vec![0; sizes.symbols];
    let mut last = 0;
    for (a, entry) in row.iter_mut().enumerate() {
        if dice.chance(blank) {
            continue;
        }
        *entry = good_entry(dice, sizes, a);
        if *entry > 0 && last > 0 && dice.chance(again) {
            *entry = last;
        }
        last = *entry;
    }
    row
}

/// A random good entry of a column.
fn good_entry(dice: &mut Dice, sizes: &Sizes, a: usize) -> i32 {
    if a == sizes.terminals {
        return 0;
    }
    let shift = dice.within(1, sizes.states - 1) as i32;
    if a > sizes.terminals || (a > 0 && (sizes.rules < 2 || dice.chance(50))) {
        return shift;
    }
    if a == 0 && (sizes.rules < 2 || dice.chance(30)) {
        return -1;
    }
    -(dice.within(2, sizes.rules) as i32)
}

/// Makes an LR table another one, mostly unsound.
fn change(dice: &mut Dice, given: &mut Given) {
    let Given { sizes, table, .. } = given;
    let (states, symbols) = (sizes.states, sizes.symbols);
    let full: Vec<usize> = (0..table.len()).filter(|k| table[*k] != 0).collect();
    let at = *dice.pick(&full);
    match dice.below(10) {
        0 => table[at] = 0,
        1 => table.swap(at, dice.below(states) * symbols + at % symbols),
        2 => table[at] = good_entry(dice, sizes, at % symbols),
        3..=4 => {
            let gotos = full.into_iter().filter(|k| k % symbols > sizes.terminals);
            let at = *dice.pick(&gotos.collect::<Vec<usize>>());
            table[at] = 0;
            if dice.chance(50) {
                table.iter_mut().skip(at % symbols).step_by(symbols).for_each(|e| *e = 0);
            }
        }
        5..=6 => {
            let (old, new) = (dice.within(1, states - 1), dice.within(1, states - 1));
            redirect(table, old as i32, new as i32);
        }
        7 => add_rows(dice, given),
        _ => change_rule(dice, given),
    }
}

/// Makes the right side of a rule one longer or one shorter at its beginning, or another in one place.
fn change_rule(dice: &mut Dice, given: &mut Given) {
    if given.sizes.rules < 2 {
        return;
    }
    let rule = dice.within(2, given.sizes.rules);
    let mut right = given.grammar.right(rule).to_vec();
    let Some(first) = right.first().copied() else { return };
    match dice.below(4) {
        0..=1 => right.insert(0, first),
        2 => drop(right.remove(0)),
        _ => {
            let at = dice.below(right.len());
            right[at] = dice.within(1, given.sizes.terminals - 1) as u32;
        }
    }
    given.grammar.set_right(rule, &right);
}

/// Adds states that no edge enters.
fn add_rows(dice: &mut Dice, given: &mut Given) {
    let more = dice.within(1, 3);
    given.sizes.states += more;
    for _ in 0..more {
        let row = wild_row(dice, &given.sizes, 70);
        given.table.extend(row);
    }
    given.signing = nothing_signed(&given.sizes);
}

/// Lets every edge to one state enter another.
fn redirect(table: &mut [i32], old: i32, new: i32) {
    for entry in table.iter_mut().filter(|entry| **entry == old) {
        *entry = new;
    }
}
