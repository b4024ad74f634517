//! How the cells are read: a state's cell and a symbol give a shift, a reduce, an accept or a blank.

use crate::judge::{cells_fit, judge_size, numbers_fit};
use crate::machine::{Action, Malformed, Reads};
use crate::said::{Said, BADCELL, OK};

/// Reads symbol a at the state of cell x: OK with what it says, SIZE or BADCELL.
pub fn read(
    terminals: usize,
    symbols: usize,
    rules: usize,
    base: &[i32],
    check: &[i32],
    x: usize,
    a: usize,
) -> Said {
    let fits = numbers_fit(terminals, symbols, rules) && cells_fit(base, check) && a < symbols;
    if let Err(refusal) = judge_size(fits) {
        return refusal;
    }
    let cells = Cells { terminals, rules, base, check };
    match cells.read(x, a) {
        Ok(Answer::Shift(Way::Direct, cell)) => Said::new(OK, &[0, cell]),
        Ok(Answer::Shift(Way::Pointer, cell)) => Said::new(OK, &[1, cell]),
        Ok(Answer::Reduce(rule)) => Said::new(OK, &[2, rule]),
        Ok(Answer::Accept) => Said::new(OK, &[3]),
        Ok(Answer::Blank) => Said::new(OK, &[4]),
        Err(Malformed) => Said::new(BADCELL, &[x]),
    }
}

/// Whether the cell of a state was the one found, or the one that it points to.
enum Way {
    Direct,
    Pointer,
}

/// What a read says.
enum Answer {
    Shift(Way, usize),
    Reduce(usize),
    Accept,
    Blank,
}

/// The lent cells with the numbers that are needed to read them.
pub(crate) struct Cells<'a> {
    pub terminals: usize,
    pub rules: usize,
    pub base: &'a [i32],
    pub check: &'a [i32],
}

impl Cells<'_> {
    /// Reads a symbol below M at the state of cell x.
    fn read(&self, x: usize, a: usize) -> Result<Answer, Malformed> {
        if !self.stands(x) {
            Err(Malformed)
        } else if a < self.terminals {
            self.read_terminal(x, a)
        } else {
            self.read_nonterminal(x, a)
        }
    }

    /// Reads a terminal: what is found from the action base, else the signed rule.
    fn read_terminal(&self, x: usize, a: usize) -> Result<Answer, Malformed> {
        let Some(t) = self.find(self.base[x], a) else {
            return self.signed_rule(x);
        };
        match self.written(t)? {
            Answer::Shift(..) if a == 0 => Err(Malformed),
            Answer::Reduce(1) if a == 0 => Ok(Answer::Accept),
            Answer::Reduce(1) => Err(Malformed),
            answer => Ok(answer),
        }
    }

    /// Reads a nonterminal: what is found from the goto base, else the signed state.
    fn read_nonterminal(&self, x: usize, a: usize) -> Result<Answer, Malformed> {
        let goto_base = self.base[x + 1];
        let found = if goto_base > 0 { self.find(goto_base, a) } else { None };
        let Some(t) = found else {
            return self.signed_state(a);
        };
        match self.written(t)? {
            Answer::Shift(way, cell) => Ok(Answer::Shift(way, cell)),
            _ => Err(Malformed),
        }
    }

    /// The rule that the state of cell x is signed with, or blank.
    fn signed_rule(&self, x: usize) -> Result<Answer, Malformed> {
        let signed = self.check[x + 1];
        let rule = signed.unsigned_abs() as usize;
        if signed >= 0 {
            Ok(Answer::Blank)
        } else if (2..=self.rules).contains(&rule) {
            Ok(Answer::Reduce(rule))
        } else {
            Err(Malformed)
        }
    }

    /// The state that nonterminal a is signed with, which is the cell found from 0, or blank.
    fn signed_state(&self, a: usize) -> Result<Answer, Malformed> {
        match self.find(0, a) {
            Some(t) => self.shift(Way::Direct, t),
            None => Ok(Answer::Blank),
        }
    }

    /// The cell at which symbol a is found from a base that is not negative.
    fn find(&self, base: i32, a: usize) -> Option<usize> {
        let t = base.unsigned_abs() as usize + 2 * a;
        (t < self.check.len() && self.check[t] == a as i32).then_some(t)
    }

    /// What the cell of a found entry holds: a state, a pointer to one, or a rule.
    fn written(&self, t: usize) -> Result<Answer, Malformed> {
        let value = self.base[t];
        let size = value.unsigned_abs() as usize;
        if value >= 0 {
            self.shift(Way::Direct, t)
        } else if size > self.rules {
            self.shift(Way::Pointer, size - self.rules)
        } else {
            Ok(Answer::Reduce(size))
        }
    }

    /// A shift to a cell, which must be one where a state other than state 0 can stand.
    fn shift(&self, way: Way, cell: usize) -> Result<Answer, Malformed> {
        if cell != 0 && self.stands(cell) {
            Ok(Answer::Shift(way, cell))
        } else {
            Err(Malformed)
        }
    }

    /// Whether a state can stand at cell x: its attached cell is inside and its action base is not negative.
    fn stands(&self, x: usize) -> bool {
        x < self.base.len() - 1 && self.base[x] >= 0
    }
}

impl Reads for Cells<'_> {
    /// What the cells say for the state of a cell and a terminal.
    fn action(&self, state: usize, terminal: usize) -> Result<Action, Malformed> {
        Ok(match self.read(state, terminal)? {
            Answer::Shift(_, cell) => Action::Shift(cell),
            Answer::Reduce(rule) => Action::Reduce(rule),
            Answer::Accept => Action::Reduce(1),
            Answer::Blank => Action::Blank,
        })
    }

    /// The cell of the state that the cells give for the state of a cell and a nonterminal.
    fn goto(&self, state: usize, nonterminal: usize) -> Result<Option<usize>, Malformed> {
        match self.read(state, nonterminal)? {
            Answer::Shift(_, cell) => Ok(Some(cell)),
            _ => Ok(None),
        }
    }
}
