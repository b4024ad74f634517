//! A grammar: how many symbols there are, and the rules.

use crate::lent;

/// T terminals, M symbols and the rules 1 to G; a [`Table`](crate::Table) judges them.
#[derive(Clone, Debug, PartialEq, Eq)]
pub struct Grammar {
    terminals: usize,
    symbols: usize,
    left: Vec<u32>,
    lens: Vec<u32>,
    rights: Vec<u32>,
}

impl Grammar {
    /// A grammar of so many terminals and symbols, the terminals among them, without rules.
    pub fn new(terminals: usize, symbols: usize) -> Grammar {
        Grammar { terminals, symbols, left: Vec::new(), lens: Vec::new(), rights: Vec::new() }
    }

    /// The grammar with one rule more, which has the next number from 1 on.
    ///
    /// ```
    /// let grammar = slettrein::Grammar::new(2, 4).rule(2, &[3]).rule(3, &[3, 1]);
    /// assert_eq!(grammar.rules(), 2);
    /// assert_eq!((grammar.left(2), grammar.right(2)), (Some(3), Some(&[3, 1][..])));
    /// assert_eq!((grammar.left(0), grammar.right(3)), (None, None));
    /// ```
    pub fn rule(mut self, left: usize, right: &[u32]) -> Grammar {
        self.left.push(lent::word(left));
        self.lens.push(lent::word(right.len()));
        self.rights.extend_from_slice(right);
        self
    }

    /// T: how many terminals there are, the end mark included.
    pub fn terminals(&self) -> usize {
        self.terminals
    }

    /// M: how many symbols there are.
    pub fn symbols(&self) -> usize {
        self.symbols
    }

    /// G: how many rules there are.
    pub fn rules(&self) -> usize {
        self.left.len()
    }

    /// The left side of a rule, if there is such a rule.
    pub fn left(&self, rule: usize) -> Option<usize> {
        self.left.get(rule.checked_sub(1)?).map(|&left| left as usize)
    }

    /// The right side of a rule, if there is such a rule.
    pub fn right(&self, rule: usize) -> Option<&[u32]> {
        let before = rule.checked_sub(1)?;
        let length = *self.lens.get(before)? as usize;
        let start = self.lens[..before].iter().map(|&n| n as usize).sum();
        self.rights[start..].get(..length)
    }

    /// T, M and G.
    pub(crate) fn counts(&self) -> lent::Counts {
        let (terminals, symbols, rules) = (self.terminals, self.symbols, self.rules());
        lent::Counts { terminals, symbols, rules }
    }

    /// The rules as they are lent.
    pub(crate) fn lend(&self) -> lent::Grammar<'_> {
        lent::Grammar { left: &self.left, lens: &self.lens, rights: &self.rights }
    }
}
