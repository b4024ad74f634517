//! A signing: what fills the blanks of a table.

use crate::lent;

/// The signed rule of each state and the signed state of each nonterminal; a [`Table`](crate::Table) makes it.
#[derive(Clone, Debug, PartialEq, Eq)]
pub struct Signing {
    terminals: usize,
    rules: Vec<u32>,
    gotos: Vec<u32>,
}

impl Signing {
    /// A signing of a table of so many terminals, with 0 for none.
    pub(crate) fn new(terminals: usize, rules: Vec<u32>, gotos: Vec<u32>) -> Signing {
        Signing { terminals, rules, gotos }
    }

    /// The rule that is signed for a state, if one is.
    pub fn rule(&self, state: usize) -> Option<usize> {
        self.rules.get(state).map(|&rule| rule as usize).filter(|rule| *rule != 0)
    }

    /// The state that is signed for a nonterminal, if one is.
    pub fn goto(&self, nonterminal: usize) -> Option<usize> {
        let place = nonterminal.checked_sub(self.terminals)?;
        self.gotos.get(place).map(|&state| state as usize).filter(|state| *state != 0)
    }

    /// The signing as it is lent.
    pub(crate) fn lend(&self) -> lent::Signing<'_> {
        lent::Signing { srule: &self.rules, sgoto: &self.gotos }
    }

    /// The signed rules and the signed states, lent to be filled.
    pub(crate) fn lend_mut(&mut self) -> [&mut [u32]; 2] {
        [&mut self.rules, &mut self.gotos]
    }
}
