//! Random cases of each operation, the same ones for the same seed.

mod cells;
mod dice;
mod fault;
mod grammar;
mod run;
mod sheet;
mod signing;
mod table;

pub(crate) use dice::Dice;
pub(crate) use fault::{bad_entry, bad_rule, bad_signing, break_size};
pub(crate) use signing::good;

use crate::ask::{Ask, Case, Cells, Given, Op};

/// Cells that a packer made of an example, each state's cell, and the count of cells taken.
pub struct Packed {
    pub cells: Cells,
    pub place: Vec<u32>,
    pub count: usize,
}

/// Packs a good example into so many cells, or refuses.
pub type Packer<'a> = &'a dyn Fn(&Given, usize) -> Option<Packed>;

/// The random case of an operation and a seed, which its name tells.
pub fn random_case(op: Op, seed: u64, packer: Packer) -> Case {
    let turn = Op::ALL.iter().position(|other| *other == op).map_or(0, |k| k as u64);
    let mut dice = Dice::new(seed.rotate_left(32) ^ turn);
    let ask = ask(&mut dice, op, packer);
    Case { name: format!("{}-{seed}", op.name()), ask }
}

/// An asking of that operation, in part with faults.
fn ask(dice: &mut Dice, op: Op, packer: Packer) -> Ask {
    let (mut ask, faulty) = match op {
        Op::Pack => (pack_ask(dice, packer), 40),
        Op::Read => (cells::read_ask(dice, packer), 10),
        Op::Parse => (parse_ask(dice, packer), 15),
        Op::Plain => {
            let given = good(dice);
            (Ask::Plain { run: run::run(dice, &given), given }, 30)
        }
        Op::Check => (Ask::Check { given: good(dice) }, 35),
        Op::SheetRead => (sheet::sheet_read_ask(dice), 10),
        Op::SheetWrite => (sheet::sheet_write_ask(dice), 15),
        Op::PackSheet => (sheet::packsheet_ask(dice), 0),
    };
    if dice.chance(faulty) {
        fault::spoil(dice, &mut ask);
    }
    ask
}

/// An asking to pack a good example into lent arrays of any content.
fn pack_ask(dice: &mut Dice, packer: Packer) -> Ask {
    let given = good(dice);
    let width = cells::width(dice, &given, packer);
    let cells = Cells { base: dice.signed(width), check: dice.signed(width) };
    let (marks, place) = (dice.unsigned(width), dice.unsigned(given.sizes.states));
    Ask::Pack { given, cells, marks, place }
}

/// An asking to parse with packed cells, in part with damaged ones.
fn parse_ask(dice: &mut Dice, packer: Packer) -> Ask {
    let given = good(dice);
    let counts = given.sizes.counts();
    let mut cells = match cells::packed(dice, &given, packer) {
        Some(packed) => packed.cells,
        None => cells::wild(dice, &counts),
    };
    if dice.chance(35) {
        cells::damage(dice, &counts, &mut cells, &[0, 1]);
    }
    let run = run::run(dice, &given);
    Ask::Parse { counts, grammar: given.grammar, cells, run }
}
