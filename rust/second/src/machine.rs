//! One move and the run of moves, over anything that says what a state does with a symbol.

use crate::said::{Said, BADCELL, MOVES, NOGOTO, OK, OUTPUT, STACK, SYNTAX, TOKEN, UNDERFLOW};
use crate::Grammar;

/// A read that has met cells that no packing makes.
pub(crate) struct Malformed;

/// What a state does with a terminal; reducing by rule 1 is accepting.
pub(crate) enum Action {
    Shift(usize),
    Reduce(usize),
    Blank,
}

/// The reads that the machine asks for; a state is whatever number the reader knows it by, and the first is 0.
pub(crate) trait Reads {
    /// What a state does with a terminal.
    fn action(&self, state: usize, terminal: usize) -> Result<Action, Malformed>;
    /// Where a state goes on a nonterminal.
    fn goto(&self, state: usize, nonterminal: usize) -> Result<Option<usize>, Malformed>;
}

/// What is parsed: by which grammar, which tokens, and with how many moves at most.
pub(crate) struct Task<'a> {
    pub terminals: usize,
    pub grammar: Grammar<'a>,
    pub tokens: &'a [u32],
    pub limit: usize,
}

/// The machine between two moves.
struct Machine<'a, R> {
    reads: &'a R,
    task: &'a Task<'a>,
    stack: &'a mut [u32],
    depth: usize,
    list: &'a mut [u32],
    reductions: usize,
    index: usize,
    moves: usize,
}

/// Parses to the end, leaves 0 in the whole stack and the reductions, then 0, in the list.
pub(crate) fn run<R: Reads>(reads: &R, task: &Task, stack: &mut [u32], list: &mut [u32]) -> Said {
    stack.fill(0);
    list.fill(0);
    if stack.is_empty() {
        return Said::new(STACK, &[0]).after(0);
    }
    let mut machine =
        Machine { reads, task, stack, depth: 1, list, reductions: 0, index: 0, moves: 0 };
    let said = machine.moves();
    machine.stack.fill(0);
    said
}

impl<R: Reads> Machine<'_, R> {
    /// Makes moves until one accepts or is refused.
    fn moves(&mut self) -> Said {
        loop {
            let accepted = match self.step() {
                Ok(accepted) => accepted,
                Err(refusal) => return refusal.after(self.moves),
            };
            self.moves += 1;
            if accepted {
                return Said::new(OK, &[self.reductions, self.moves]).after(self.moves);
            }
        }
    }

    /// Makes one move and says whether it accepts.
    fn step(&mut self) -> Result<bool, Said> {
        if self.moves >= self.task.limit {
            return Err(Said::new(MOVES, &[self.index]));
        }
        let token = self.token()?;
        let top = self.state_under(0);
        match self.reads.action(top, token) {
            Err(Malformed) => Err(Said::new(BADCELL, &[top])),
            Ok(Action::Blank) => Err(Said::new(SYNTAX, &[self.index])),
            Ok(Action::Shift(state)) => self.shift(state),
            Ok(Action::Reduce(rule)) => self.reduce(rule),
        }
    }

    /// The current token, which is 0 at the end and nowhere else.
    fn token(&self) -> Result<usize, Said> {
        let Some(&token) = self.task.tokens.get(self.index) else {
            return Ok(0);
        };
        if (1..self.task.terminals).contains(&(token as usize)) {
            Ok(token as usize)
        } else {
            Err(Said::new(TOKEN, &[self.index]))
        }
    }

    /// Pushes a state and goes on to the next token.
    fn shift(&mut self, state: usize) -> Result<bool, Said> {
        self.replace(0, state)?;
        self.index += 1;
        Ok(false)
    }

    /// Reduces by a rule and says whether that accepts.
    fn reduce(&mut self, rule: usize) -> Result<bool, Said> {
        if self.reductions == self.list.len() {
            return Err(Said::new(OUTPUT, &[self.index]));
        }
        if rule != 1 {
            self.replace_right_side(rule)?;
        }
        self.list[self.reductions] = rule as u32;
        self.reductions += 1;
        Ok(rule == 1)
    }

    /// Replaces the states of a rule's right side by the state that the one before them goes to.
    fn replace_right_side(&mut self, rule: usize) -> Result<(), Said> {
        let length = self.task.grammar.lens[rule - 1] as usize;
        if self.depth < length + 1 {
            return Err(Said::new(UNDERFLOW, &[self.index, rule]));
        }
        let uncovered = self.state_under(length);
        let left = self.task.grammar.left[rule - 1] as usize;
        match self.reads.goto(uncovered, left) {
            Err(Malformed) => Err(Said::new(BADCELL, &[uncovered])),
            Ok(None) => Err(Said::new(NOGOTO, &[self.index, rule])),
            Ok(Some(state)) => self.replace(length, state),
        }
    }

    /// The state that lies under the given number of states, fewer than the depth.
    fn state_under(&self, above: usize) -> usize {
        self.stack[self.depth - 1 - above] as usize
    }

    /// Takes so many states off the stack and pushes one, unless there is no room for it.
    fn replace(&mut self, off: usize, state: usize) -> Result<(), Said> {
        let kept = self.depth - off;
        if kept == self.stack.len() {
            return Err(Said::new(STACK, &[self.index]));
        }
        self.stack[kept] = state as u32;
        self.depth = kept + 1;
        Ok(())
    }
}
