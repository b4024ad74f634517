//! Random faults: broken sizes, bad rules, bad entries and bad signings.

use super::dice::Dice;
use crate::ask::{Ask, Given, Grammar, Signing, Sizes};
use crate::slot::{slots, Slot};

/// Puts one fault, or now and then two, in an asking that has none.
pub fn spoil(dice: &mut Dice, ask: &mut Ask) {
    let faults = if dice.chance(75) { 1 } else { 2 };
    let kinds: Vec<usize> = (0..faults).map(|_| dice.below(4)).collect();
    for kind in 1..4 {
        if kinds.contains(&kind) {
            spoil_content(dice, ask, kind);
        }
    }
    if kinds.contains(&0) {
        break_size(dice, ask);
    }
}

/// Puts a fault of rules (1), entries (2) or signing (3) in an asking, as far as it has them.
fn spoil_content(dice: &mut Dice, ask: &mut Ask, kind: usize) {
    match ask {
        Ask::Pack { given, .. } | Ask::Plain { given, .. } | Ask::Check { given } => match kind {
            1 => bad_rule(dice, &given.sizes, &mut given.grammar),
            2 => bad_entry(dice, given),
            _ => bad_signing(dice, &given.sizes, &mut given.signing),
        },
        Ask::Parse { counts, grammar, .. } => {
            let (terminals, symbols, rules) = (counts.terminals, counts.symbols, counts.rules);
            bad_rule(dice, &Sizes { terminals, symbols, rules, states: 0 }, grammar);
        }
        Ask::SheetWrite { sizes, signing, .. } => bad_signing(dice, sizes, signing),
        Ask::Read { .. } | Ask::SheetRead { .. } | Ask::PackSheet { .. } => break_size(dice, ask),
    }
}

/// Breaks a bound or makes a length one off, somewhere; too many tokens come only now and then.
pub fn break_size(dice: &mut Dice, ask: &mut Ask) {
    let loose = ["stack", "list", "text", "buffer"];
    let mut places = slots(ask);
    places.retain(|(key, _)| !loose.contains(key));
    if places.is_empty() {
        return;
    }
    let at = if dice.chance(30) { 0 } else { dice.below(places.len()) };
    match places.swap_remove(at) {
        ("tokens", Slot::Unsigned(tokens)) if dice.chance(10) => tokens.resize(65_536, 1),
        ("tokens", _) => {}
        ("lens", Slot::Unsigned(lens)) => change_lens(dice, lens),
        ("limit", Slot::Sizes(limit)) => {
            limit.into_iter().for_each(|n| *n = *dice.pick(&[1_000_001, 2_000_000, usize::MAX]));
        }
        (_, Slot::Sizes(mut sizes)) => {
            let place = dice.below(sizes.len());
            cross(dice, sizes[place]);
        }
        (_, Slot::Unsigned(list)) => one_off(dice, list, 1),
        (_, Slot::Signed(list)) => one_off(dice, list, 1),
        (_, Slot::Bytes(list)) => one_off(dice, list, 1),
    }
}

/// Makes a size another, mostly one that crosses a bound.
fn cross(dice: &mut Dice, size: &mut usize) {
    let (less, more) = (size.saturating_sub(1), size.saturating_add(1));
    *size = *dice.pick(&[0, 1, less, more, 257, 513, 1_025, 65_537, usize::MAX]);
}

/// Makes a list one longer or one shorter.
fn one_off<N>(dice: &mut Dice, list: &mut Vec<N>, more: N) {
    if dice.chance(50) || list.pop().is_none() {
        list.push(more);
    }
}

/// Makes the lengths of the right sides not add up, or one of them too long.
fn change_lens(dice: &mut Dice, lens: &mut Vec<u32>) {
    if lens.is_empty() || dice.chance(30) {
        one_off(dice, lens, 1);
        return;
    }
    let at = dice.below(lens.len());
    let less = lens[at].wrapping_sub(1);
    lens[at] = *dice.pick(&[less, lens[at] + 1, 65, u32::MAX]);
}

/// Makes a rule bad while all lengths still add up.
pub fn bad_rule(dice: &mut Dice, sizes: &Sizes, grammar: &mut Grammar) {
    let (terminals, symbols) = (sizes.terminals as u32, sizes.symbols as u32);
    let rule = if dice.chance(25) { 1 } else { dice.within(1, sizes.rules) };
    let mut right = grammar.right(rule).to_vec();
    if rule == 1 && dice.chance(40) {
        right = match dice.below(3) {
            0 => Vec::new(),
            1 => vec![symbols - 1, symbols - 1],
            _ => vec![dice.below(sizes.terminals) as u32],
        };
    } else if right.is_empty() || dice.chance(40) {
        let lefts = [0, terminals, terminals - 1, terminals + 1, symbols, symbols + 1, u32::MAX];
        grammar.left[rule - 1] = *dice.pick(&lefts);
    } else {
        let at = dice.below(right.len());
        right[at] = *dice.pick(&[0, terminals, symbols, symbols + 1, u32::MAX]);
    }
    grammar.set_right(rule, &right);
}

/// Makes an entry, or two, bad for their columns.
pub fn bad_entry(dice: &mut Dice, given: &mut Given) {
    let Sizes { terminals, symbols, rules, states } = given.sizes;
    let times = if dice.chance(80) { 1 } else { 2 };
    for _ in 0..times {
        let at = dice.below(given.table.len());
        let (past_rules, past_states) = (-(rules as i32) - 1, states as i32);
        let mut bad = vec![past_rules, past_states, i32::MIN, i32::MAX, i32::MIN + 1];
        match at % symbols {
            0 => bad.extend([1, past_states - 1]),
            a if a < terminals => bad.push(-1),
            a if a == terminals => bad.extend([1, -1, -2]),
            _ => bad.extend([-1, -2]),
        }
        given.table[at] = *dice.pick(&bad);
    }
}

/// Makes a signed rule or a signed state bad, or two signed states equal.
pub fn bad_signing(dice: &mut Dice, sizes: &Sizes, signing: &mut Signing) {
    let (rules, states) = (sizes.rules as u32, sizes.states as u32);
    match dice.below(4) {
        0 => {
            let s = dice.below(signing.srule.len());
            signing.srule[s] = *dice.pick(&[1, rules + 1, 65_535, u32::MAX]);
        }
        1 => signing.sgoto[0] = *dice.pick(&[1, states - 1, states, u32::MAX]),
        2 => {
            let k = dice.below(signing.sgoto.len());
            signing.sgoto[k] = *dice.pick(&[states, states + 1, 65_535, u32::MAX]);
        }
        _ => {
            let target = dice.within(1, sizes.states) as u32;
            for _ in 0..3 {
                let k = dice.below(signing.sgoto.len());
                signing.sgoto[k] = target;
            }
        }
    }
}
