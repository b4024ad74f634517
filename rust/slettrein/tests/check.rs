//! The table check of the small board, as document 01 works it out.

mod common;

use cases::board;
use common::signed;
use slettrein::Refusal;

#[test]
fn the_small_board_is_sound() {
    let (table, signing) = signed(&board()).expect("the small board is good");
    assert_eq!(table.check(&signing), Ok(()));
    assert_eq!(table.check(&table.unsigned()), Ok(()));
}

#[test]
fn a_signed_rule_must_fit_every_path() {
    for (state, rule, expected) in [
        (4, 4, Err(Refusal::Unsound { state: 4, rule: 4 })),
        (1, 2, Ok(())),
        (0, 4, Err(Refusal::Unsound { state: 0, rule: 4 })),
    ] {
        let mut given = board();
        given.signing.srule[state] = rule;
        let (table, signing) = signed(&given).expect("any rule can be signed");
        assert_eq!(table.check(&signing), expected, "state {state}, rule {rule}");
    }
}

#[test]
fn a_changed_table_is_unsound() {
    let mut given = board();
    given.table[6] = -3;
    let (table, signing) = signed(&given).expect("a good entry");
    assert_eq!(table.check(&signing), Err(Refusal::Unsound { state: 1, rule: 3 }));
}

#[test]
fn a_signing_of_another_table_is_not_checked() {
    let (table, _) = signed(&board()).expect("the small board is good");
    let mut given = board();
    given.sizes.states = 8;
    given.table.extend([0; 6]);
    given.signing.srule.push(0);
    let (_, larger) = signed(&given).expect("a good table");
    assert_eq!(table.check(&larger), Err(Refusal::Size));
}
