//! Random token lists, and stacks, lists and limits around what a parse of them needs.

use super::dice::Dice;
use super::grammar::sentence;
use crate::ask::{Given, Run, Sizes};

/// What a parse takes in its first few hundred moves.
struct Need {
    depth: usize,
    reductions: usize,
    moves: usize,
}

/// Something for a parse of this grammar and table to run on.
pub fn run(dice: &mut Dice, given: &Given) -> Run {
    let tokens = tokens(dice, given);
    let need = need(given, &tokens);
    let stack = around(dice, need.depth);
    let list = around(dice, need.reductions);
    let limit = if dice.chance(10) { 1_000_000 } else { around(dice, need.moves) };
    Run { limit, stack: dice.unsigned(stack), list: dice.unsigned(list), tokens }
}

/// A length at what is needed, one below, above, or far below.
fn around(dice: &mut Dice, need: usize) -> usize {
    match dice.below(20) {
        0 => 0,
        1 => need.saturating_sub(1),
        2 => dice.within(0, need),
        3..=6 => need,
        7..=9 => need + 1,
        _ => need + dice.within(2, 40),
    }
}

/// A token list: from the grammar, damaged, without any plan, or with tokens that are none.
fn tokens(dice: &mut Dice, given: &Given) -> Vec<u32> {
    let sizes = &given.sizes;
    let mut tokens = sentence(dice, sizes, &given.grammar);
    match dice.below(20) {
        0..=9 => {}
        10..=13 => damage(dice, sizes, &mut tokens),
        14..=15 => {
            let length = dice.within(0, 12);
            tokens = (0..length).map(|_| any_token(dice, sizes)).collect();
        }
        16 => tokens.clear(),
        _ => {
            let strange = [0, sizes.terminals as u32, sizes.terminals as u32 + 1, u32::MAX];
            let at = dice.within(0, tokens.len());
            tokens.insert(at, *dice.pick(&strange));
        }
    }
    tokens
}

/// Drops, doubles, changes or adds a token.
fn damage(dice: &mut Dice, sizes: &Sizes, tokens: &mut Vec<u32>) {
    let token = any_token(dice, sizes);
    if tokens.is_empty() {
        tokens.push(token);
        return;
    }
    let at = dice.below(tokens.len());
    match dice.below(4) {
        0 => tokens.truncate(at),
        1 => drop(tokens.remove(at)),
        2 => tokens[at] = token,
        _ => tokens.insert(at, token),
    }
}

/// A token from 1 to T-1.
fn any_token(dice: &mut Dice, sizes: &Sizes) -> u32 {
    dice.within(1, sizes.terminals - 1) as u32
}

/// The entry of the filled table.
fn filled(given: &Given, state: usize, a: usize) -> i32 {
    let Sizes { terminals, symbols, .. } = given.sizes;
    match given.table[state * symbols + a] {
        0 if a < terminals => -(given.signing.srule[state] as i32),
        0 => given.signing.sgoto[a - terminals] as i32,
        entry => entry,
    }
}

/// Parses until a refusal or for a few hundred moves, and tells what that took, the refused move included.
fn need(given: &Given, tokens: &[u32]) -> Need {
    let mut need = Need { depth: 1, reductions: 0, moves: 0 };
    let mut stack = vec![0];
    let mut index = 0;
    while need.moves < 300 {
        need.moves += 1;
        let token = tokens.get(index).map_or(0, |t| *t as usize);
        if token >= given.sizes.terminals {
            break;
        }
        let state = stack[stack.len() - 1];
        let entry = filled(given, state, token);
        if entry > 0 {
            stack.push(entry as usize);
            index += 1;
        } else {
            need.reductions += usize::from(entry < 0);
            if entry >= -1 || !reduce(given, &mut stack, -entry as usize) {
                break;
            }
        }
        need.depth = need.depth.max(stack.len());
    }
    need
}

/// Reduces on the stack; false where that is refused.
fn reduce(given: &Given, stack: &mut Vec<usize>, rule: usize) -> bool {
    let length = given.grammar.lens[rule - 1] as usize;
    if stack.len() <= length {
        return false;
    }
    stack.truncate(stack.len() - length);
    let target = filled(given, stack[stack.len() - 1], given.grammar.left[rule - 1] as usize);
    stack.push(target as usize);
    target != 0
}
