//! Every lent array whose length is fixed, one too short and one too long.

use super::example::{pack, parse, plain, row, row_cells, run};
use super::Edges;
use crate::ask::Ask;
use crate::sheet::sheet_text;
use crate::slot::{slots, Slot};

/// The arrays that may have any length.
const LOOSE: [&str; 5] = ["tokens", "stack", "list", "text", "buffer"];

/// All of these edges: SIZE for a fixed length, in every operation that takes the array.
pub fn put(edges: &mut Edges) {
    for ask in good_asks() {
        let keys: Vec<&str> = slots(&mut ask.clone()).into_iter().map(|(key, _)| key).collect();
        for (at, key) in keys.iter().enumerate().filter(|(_, key)| !LOOSE.contains(key)) {
            for (way, longer) in [("short", false), ("long", true)] {
                let mut changed = ask.clone();
                if one_off(&mut changed, at, longer) {
                    edges.put(format!("{key}-one-too-{way}"), changed, 1, &[]);
                }
            }
        }
    }
}

/// One good asking of every operation that takes arrays of fixed lengths.
fn good_asks() -> Vec<Ask> {
    let (given, cells) = (row(), row_cells());
    let (sizes, counts) = (given.sizes, given.sizes.counts());
    let text = sheet_text(&sizes, &given.signing);
    let signing = given.signing.clone();
    vec![
        pack(given.clone(), 20),
        Ask::Read { counts, cells: cells.clone(), x: 0, a: 0 },
        parse(&given, cells, run(2, 100, 5, 5)),
        plain(given.clone(), run(2, 100, 5, 5)),
        Ask::Check { given },
        Ask::SheetRead { sizes, signing: signing.clone(), text },
        Ask::SheetWrite { sizes, signing, buffer: vec![7; 200] },
    ]
}

/// Makes the array behind a key one longer by a good element, or one shorter; false if it is no array.
fn one_off(ask: &mut Ask, at: usize, longer: bool) -> bool {
    match slots(ask).swap_remove(at).1 {
        Slot::Sizes(_) => return false,
        Slot::Unsigned(list) if longer => list.push(0),
        Slot::Unsigned(list) => drop(list.pop()),
        Slot::Signed(list) if longer => list.push(0),
        Slot::Signed(list) => drop(list.pop()),
        Slot::Bytes(list) if longer => list.push(0),
        Slot::Bytes(list) => drop(list.pop()),
    }
    true
}
