//! An ordinary parser over the two-dimensional filled table.

use cases::{Given, Sizes};

/// The filled table, and the left side and the length of each rule.
pub struct Ordinary<'a> {
    terminals: usize,
    symbols: usize,
    left: &'a [u32],
    lens: &'a [u32],
    filled: Vec<i32>,
}

/// The filled table of a signed one.
fn filled(given: &Given) -> Vec<i32> {
    let Sizes { terminals, symbols, .. } = given.sizes;
    let entry = |(place, entry): (usize, &i32)| match (*entry, place / symbols, place % symbols) {
        (0, state, a) if a < terminals => -(given.signing.srule[state] as i32),
        (0, _, a) => given.signing.sgoto[a - terminals] as i32,
        (entry, ..) => entry,
    };
    given.table.iter().enumerate().map(entry).collect()
}

impl<'a> Ordinary<'a> {
    /// The parser of a grammar and its signed table.
    pub fn new(given: &'a Given) -> Ordinary<'a> {
        let Sizes { terminals, symbols, .. } = given.sizes;
        let (left, lens) = (&given.grammar.left[..], &given.grammar.lens[..]);
        Ordinary { terminals, symbols, left, lens, filled: filled(given) }
    }

    /// Parses, and then clears the stack and the rest of the list: the reductions and the moves, or nothing where the tokens are refused.
    pub fn parse(
        &self,
        tokens: &[u32],
        limit: usize,
        stack: &mut [u32],
        list: &mut [u32],
    ) -> Option<(usize, usize)> {
        let mut count = 0;
        let moves = self.run(tokens, limit, stack, list, &mut count);
        stack.fill(0);
        list[count..].fill(0);
        Some((count, moves?))
    }

    /// Makes moves up to the one that accepts, and gives their number; `count` is that of the reductions.
    fn run(
        &self,
        tokens: &[u32],
        limit: usize,
        stack: &mut [u32],
        list: &mut [u32],
        count: &mut usize,
    ) -> Option<usize> {
        let (mut depth, mut place, mut state) = (1, 0, 0);
        *stack.first_mut()? = 0;
        for moves in 0..limit {
            let token = tokens.get(place).copied().unwrap_or(0) as usize;
            if place < tokens.len() && !(1..self.terminals).contains(&token) {
                return None;
            }
            let entry = self.filled[state * self.symbols + token];
            if entry > 0 {
                state = entry as usize;
                place += 1;
            } else if entry < 0 {
                let rule = entry.unsigned_abs();
                *list.get_mut(*count)? = rule;
                *count += 1;
                if rule == 1 {
                    return Some(moves + 1);
                }
                depth -= self.lens[rule as usize - 1] as usize;
                let row = stack[depth - 1] as usize * self.symbols;
                state = self.filled[row + self.left[rule as usize - 1] as usize] as usize;
            } else {
                return None;
            }
            *stack.get_mut(depth)? = state as u32;
            depth += 1;
        }
        None
    }
}
