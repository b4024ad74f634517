//! The signing sheet as text, and the small board of document 01.

use crate::ask::{Given, Grammar, Signing, Sizes};

/// The lines of a sheet without their LF; a value of 0 is `none`, and T has no line.
pub fn sheet_lines(sizes: &Sizes, signing: &Signing) -> Vec<String> {
    let mut lines = vec![
        "sheet=1".to_string(),
        format!("terminals={}", sizes.terminals),
        format!("symbols={}", sizes.symbols),
        format!("rules={}", sizes.rules),
        format!("states={}", sizes.states),
    ];
    for (s, rule) in signing.srule.iter().enumerate() {
        lines.push(format!("state.{s}={}", value(*rule)));
    }
    for (k, target) in signing.sgoto.iter().enumerate().skip(1) {
        lines.push(format!("goto.{}={}", sizes.terminals.saturating_add(k), value(*target)));
    }
    lines
}

/// A sheet with every line ended by one LF.
pub fn sheet_text(sizes: &Sizes, signing: &Signing) -> Vec<u8> {
    let mut text = Vec::new();
    for line in sheet_lines(sizes, signing) {
        text.extend_from_slice(line.as_bytes());
        text.push(b'\n');
    }
    text
}

/// A signed number as it stands in a sheet.
fn value(number: u32) -> String {
    match number {
        0 => "none".to_string(),
        _ => number.to_string(),
    }
}

/// The small board with its signing.
pub fn board() -> Given {
    let mut grammar = Grammar::default();
    for (left, right) in [(3, &[4][..]), (4, &[4, 5]), (4, &[5]), (5, &[1]), (5, &[2, 1])] {
        grammar.push(left, right);
    }
    let table = vec![
        0, 3, 4, 0, 1, 2, //
        -1, 3, 4, 0, 0, 5, //
        -3, -3, -3, 0, 0, 0, //
        -4, -4, -4, 0, 0, 0, //
        0, 6, 0, 0, 0, 0, //
        -2, -2, -2, 0, 0, 0, //
        -5, -5, -5, 0, 0, 0,
    ];
    let signing = Signing { srule: vec![0, 0, 3, 4, 0, 2, 5], sgoto: vec![0, 1, 5] };
    let sizes = Sizes { terminals: 3, symbols: 6, rules: 5, states: 7 };
    Given { sizes, grammar, table, signing }
}
