//! The second program gives the hand-made answers at the edges.

use cases::edges::{edges, packed_by_hand};
use cases::{Answer, Array, Ask, Cells};
use replay::{Program, Second};

/// The array of that name after a call.
fn array<'a>(answer: &'a Answer, name: &str) -> Option<&'a Array> {
    answer.arrays.iter().find(|(key, _)| *key == name).map(|(_, array)| array)
}

#[test]
fn every_edge_has_the_hand_made_answer() {
    let mut wrong = Vec::new();
    for (case, code, values) in edges() {
        let answer = Second.answer(&case.ask);
        if (answer.code, &answer.values) != (Some(code), &values) {
            let found = (answer.code, answer.values);
            wrong.push(format!("{}: by hand {code} {values:?}, found {found:?}", case.name));
        }
    }
    assert!(wrong.is_empty(), "{} edges differ:\n{}", wrong.len(), wrong.join("\n"));
}

#[test]
fn the_hand_made_cells_are_those_that_packing_gives() {
    for (given, cells, place) in packed_by_hand() {
        let width = cells.base.len();
        let lent = Cells { base: vec![3; width], check: vec![3; width] };
        let (marks, places) = (vec![3; width], vec![3; place.len()]);
        let answer = Second.answer(&Ask::Pack { given, cells: lent, marks, place: places });
        assert_eq!((answer.code, &answer.values), (Some(0), &vec![width as u64]));
        assert_eq!(array(&answer, "base"), Some(&Array::Signed(cells.base)));
        assert_eq!(array(&answer, "check"), Some(&Array::Signed(cells.check)));
        assert_eq!(array(&answer, "place"), Some(&Array::Unsigned(place)));
    }
}
