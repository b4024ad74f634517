//! A table that fails the table check is told to.

use audit::{page, text};

use crate::tables::{asked, audited};

#[test]
fn an_unsound_signature_is_told() {
    let mut asked = asked("board");
    asked.given.signing.srule[4] = 4;
    let (packed, report) = audited(&asked);
    let told = "The table check fails with UNSOUND (6): \
                On some path to state 4 its reduction by rule 4 is wrong.";
    assert!(text(&packed, &report).contains(&format!("\n{told}\n")));
    assert!(page(&packed, &report).contains(&format!("<p>{told}</p>")));
    let signed = report.rules.iter().find(|signed| signed.state == 4).expect("the signature");
    assert_eq!((signed.rule, &signed.fills[..]), (4, &[0, 2][..]));
}
