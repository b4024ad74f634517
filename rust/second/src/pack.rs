//! Packing: every state and every written row gets its place in the cells, in document 01's order.

use std::collections::{HashMap, HashSet};

use crate::filled::Row;
use crate::judge::{cells_fit, judge_given};
use crate::said::{Said, NOROOM, OK};
use crate::{Given, Grammar, Signing, Sizes};

/// Packs a table and its signing into the lent cells: OK with the count of cells, NOROOM, or 1 to 4.
#[allow(clippy::too_many_arguments)]
pub fn pack(
    sizes: Sizes,
    grammar: Grammar,
    table: &[i32],
    signing: Signing,
    base: &mut [i32],
    check: &mut [i32],
    marks: &mut [u32],
    place: &mut [u32],
) -> Said {
    let given = Given { sizes, grammar, table, signing };
    let others = cells_fit(base, check) && marks.len() == base.len() && place.len() == sizes.states;
    if let Err(refusal) = judge_given(&given, others) {
        return refusal;
    }
    base.fill(0);
    check.fill(sizes.symbols as i32);
    marks.fill(0);
    place.fill(0);
    let mut packing = Packing::new(&given, base, check, marks, place);
    if packing.place_all().is_ok() {
        return Said::new(OK, &[packing.count]);
    }
    base.fill(0);
    check.fill(0);
    marks.fill(0);
    place.fill(0);
    Said::new(NOROOM, &[])
}

/// A cell at W or above would have been taken.
struct NoRoom;

/// The cells while they are being filled; a place of 0 is no cell, except for state 0, to which nothing goes.
struct Packing<'a> {
    given: &'a Given<'a>,
    base: &'a mut [i32],
    check: &'a mut [i32],
    marks: &'a mut [u32],
    place: &'a mut [u32],
    count: usize,
    action_bases: HashSet<usize>,
    goto_bases: HashSet<usize>,
    base_of_row: HashMap<Row, usize>,
}

impl<'a> Packing<'a> {
    /// The packing of which nothing is placed yet, over cells that are all empty.
    fn new(
        given: &'a Given<'a>,
        base: &'a mut [i32],
        check: &'a mut [i32],
        marks: &'a mut [u32],
        place: &'a mut [u32],
    ) -> Self {
        let (action_bases, goto_bases, base_of_row) =
            (HashSet::new(), HashSet::new(), HashMap::new());
        Packing {
            given,
            base,
            check,
            marks,
            place,
            count: 0,
            action_bases,
            goto_bases,
            base_of_row,
        }
    }

    /// Places state 0 and the signed targets, and then gives each state its turn.
    fn place_all(&mut self) -> Result<(), NoRoom> {
        let sizes = self.given.sizes;
        self.seat(0, 0, sizes.symbols)?;
        for a in sizes.terminals + 1..sizes.symbols {
            let target = self.given.signing.sgoto[a - sizes.terminals] as usize;
            if target != 0 {
                self.seat(target, 2 * a, a)?;
            }
        }
        for s in 0..sizes.states {
            if !self.has_cell(s) {
                self.seat(s, self.least_seat(), sizes.symbols)?;
            }
            let x = self.place[s] as usize;
            self.base[x] = self.place_action_row(s)? as i32;
            self.base[x + 1] = self.place_goto_row(s)? as i32;
        }
        Ok(())
    }

    /// The action base of s: that of an earlier state with the same written row, or a new one.
    fn place_action_row(&mut self, s: usize) -> Result<usize, NoRoom> {
        let row = self.given.action_row(s);
        if let Some(&b) = self.base_of_row.get(&row) {
            return Ok(b);
        }
        let b = self.least_base(&row, &self.action_bases);
        self.write_row(&row, b)?;
        self.action_bases.insert(b);
        self.base_of_row.insert(row, b);
        Ok(b)
    }

    /// The goto base of s, which is its own, or 0 where there are no written gotos.
    fn place_goto_row(&mut self, s: usize) -> Result<usize, NoRoom> {
        let row = self.given.goto_row(s);
        if row.is_empty() {
            return Ok(0);
        }
        let b = self.least_base(&row, &self.goto_bases);
        self.write_row(&row, b)?;
        self.goto_bases.insert(b);
        Ok(b)
    }

    /// The least cell from 1 up that is free with the one after it.
    fn least_seat(&self) -> usize {
        let mut x = 1;
        while !self.is_free(x) || !self.is_free(x + 1) {
            x += 1;
        }
        x
    }

    /// The least base from 1 up that is none of the given bases and from which all needed cells are free.
    fn least_base(&self, row: &Row, bases: &HashSet<usize>) -> usize {
        let needs = self.needs(row);
        let mut b = 1;
        while needs.iter().any(|need| !self.is_free(b + need)) || bases.contains(&b) {
            b += 1;
        }
        b
    }

    /// How far from the base the cells stand that a row needs.
    fn needs(&self, row: &Row) -> Vec<usize> {
        let mut needs = Vec::new();
        for (index, &(a, entry)) in row.iter().enumerate() {
            needs.push(2 * a);
            let first = row[..index].iter().all(|&(_, earlier)| earlier != entry);
            if entry > 0 && first && !self.has_cell(entry as usize) {
                needs.push(2 * a + 1);
            }
        }
        needs
    }

    /// Writes the entries of a row from its base, and with them the states that stand there.
    fn write_row(&mut self, row: &Row, b: usize) -> Result<(), NoRoom> {
        for &(a, entry) in row {
            let t = b + 2 * a;
            if entry < 0 {
                self.take(t, entry, a as i32)?;
            } else if self.has_cell(entry as usize) {
                let cell = self.place[entry as usize] as usize;
                self.take(t, -((self.given.sizes.rules + cell) as i32), a as i32)?;
            } else {
                self.seat(entry as usize, t, a)?;
            }
        }
        Ok(())
    }

    /// Lets state s stand at cell x, reached by a symbol or by none (M), with its attached cell.
    fn seat(&mut self, s: usize, x: usize, symbol: usize) -> Result<(), NoRoom> {
        let attached = match self.given.signing.srule[s] {
            0 => self.given.sizes.symbols as i32,
            rule => -(rule as i32),
        };
        self.take(x, 0, symbol as i32)?;
        self.take(x + 1, 0, attached)?;
        self.place[s] = x as u32;
        Ok(())
    }

    /// Takes a cell and writes it.
    fn take(&mut self, cell: usize, base: i32, check: i32) -> Result<(), NoRoom> {
        if cell >= self.marks.len() {
            return Err(NoRoom);
        }
        self.base[cell] = base;
        self.check[cell] = check;
        self.marks[cell] = 1;
        self.count = self.count.max(cell + 1);
        Ok(())
    }

    /// Whether a cell is free, as all cells at W or above are.
    fn is_free(&self, cell: usize) -> bool {
        cell >= self.marks.len() || self.marks[cell] == 0
    }

    /// Whether a state stands somewhere.
    fn has_cell(&self, s: usize) -> bool {
        s == 0 || self.place[s] != 0
    }
}
