//! What each cell of a packed table is.

use crate::Packed;

/// What a cell is.
#[derive(Clone, Copy, Debug, PartialEq, Eq)]
pub enum Kind {
    /// Nothing stands there.
    Free,
    /// A state stands there.
    State(usize),
    /// A state stands there that is signed for a nonterminal.
    SignedGoto { state: usize, nonterminal: usize },
    /// It is attached to the cell of a state for which no rule is signed.
    Attached(usize),
    /// It is attached to the cell of a state, and has the rule that is signed for it.
    SignedRule { state: usize, rule: usize },
    /// An entry that reduces by a rule, or accepts by rule 1.
    Reduce(usize),
    /// An entry that points to the cell of a state.
    Pointer(usize),
}

/// The kind of every cell.
pub fn kinds(packed: &Packed) -> Vec<Kind> {
    let cells = &packed.cells;
    let mut kinds: Vec<Kind> = (0..cells.base().len()).map(|cell| entry(packed, cell)).collect();
    for (state, &cell) in cells.place().iter().enumerate() {
        let attached = match packed.signing.rule(state) {
            Some(rule) => Kind::SignedRule { state, rule },
            None => Kind::Attached(state),
        };
        let both = [Kind::State(state), attached];
        for (kind, new) in kinds.iter_mut().skip(cell as usize).zip(both) {
            *kind = new;
        }
    }
    let grammar = packed.table.grammar();
    for nonterminal in grammar.terminals()..grammar.symbols() {
        let Some(state) = packed.signing.goto(nonterminal) else { continue };
        if let Some(kind) = packed.place(state).and_then(|cell| kinds.get_mut(cell)) {
            *kind = Kind::SignedGoto { state, nonterminal };
        }
    }
    kinds
}

/// The kind of a cell at which no state stands and which is attached to none.
fn entry(packed: &Packed, cell: usize) -> Kind {
    let number = packed.cells.base()[cell].unsigned_abs() as usize;
    let grammar = packed.table.grammar();
    if packed.cells.check()[cell] == grammar.symbols() as i32 {
        Kind::Free
    } else if number > grammar.rules() {
        Kind::Pointer(number - grammar.rules())
    } else {
        Kind::Reduce(number)
    }
}
