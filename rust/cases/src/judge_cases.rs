//! Random inputs for the judgement alone, the numbers 0 to 4.

use crate::ask::{Ask, Given};
use crate::random::{bad_entry, bad_rule, bad_signing, break_size, good, Dice};

/// So many random inputs with the seeds that they come from, one after the other.
pub fn judge_cases(seed: u64, count: usize) -> impl Iterator<Item = (u64, Given)> {
    (0..count as u64).map(move |k| seed.wrapping_add(k)).map(|seed| (seed, judge_case(seed)))
}

/// The input of a seed: good, or with up to four faults of any kinds at once.
pub fn judge_case(seed: u64) -> Given {
    let mut dice = Dice::new(seed.rotate_left(32) ^ 0xff);
    let mut given = good(&mut dice);
    for _ in 0..*dice.pick(&[0, 0, 1, 1, 1, 1, 1, 2, 3, 4]) {
        match dice.below(12) {
            0..=2 => bad_signing(&mut dice, &given.sizes, &mut given.signing),
            3..=6 => bad_entry(&mut dice, &mut given),
            7..=9 => bad_rule(&mut dice, &given.sizes, &mut given.grammar),
            _ => return with_broken_size(&mut dice, given),
        }
    }
    given
}

/// The same input with a size or a length broken, after which no other fault is looked for.
fn with_broken_size(dice: &mut Dice, given: Given) -> Given {
    let mut ask = Ask::Check { given };
    break_size(dice, &mut ask);
    let Ask::Check { given } = ask else { unreachable!("the asking is still a check") };
    given
}
