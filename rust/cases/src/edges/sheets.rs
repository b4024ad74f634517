//! Sheets at the edge: values, lines, the end of the text, and buffers just long enough.

use super::example::least;
use super::Edges;
use crate::ask::{Ask, Signing, Sizes};

/// T 2, M 5, G 3, L 2: lines 1 to 5 are the header, 6 and 7 the states, 8 and 9 nonterminals 3 and 4.
const SIZES: Sizes = Sizes { terminals: 2, symbols: 5, rules: 3, states: 2 };

/// A right sheet for these sizes, of 91 bytes.
const RIGHT: &str = "sheet=1\nterminals=2\nsymbols=5\nrules=3\nstates=2\n\
state.0=none\nstate.1=3\ngoto.3=none\ngoto.4=1\n";

/// A name, the signed rules and the signed states, and what SIGN says of them.
type BadSigning = (&'static str, [u32; 2], [u32; 3], [u64; 2]);

/// All of these edges.
pub fn put(edges: &mut Edges) {
    put_values(edges);
    put_headers(edges);
    put_lines(edges);
    put_ends(edges);
    put_signs(edges);
    put_buffers(edges);
}

/// Reads a text into a signing of sevens.
fn put_read(edges: &mut Edges, name: &str, text: &str, code: u32, values: &[u64]) {
    let signing = Signing { srule: vec![7; 2], sgoto: vec![7; 3] };
    let ask = Ask::SheetRead { sizes: SIZES, signing, text: text.as_bytes().to_vec() };
    edges.put(name, ask, code, values);
}

/// Values that are no numbers of a sheet are LINE, whatever they would sign.
fn put_values(edges: &mut Edges) {
    let bad = [
        "",
        "0",
        "00",
        "01",
        "007",
        "+2",
        "-2",
        " 2",
        "2 ",
        "2\r",
        "2.",
        "2x",
        "0x2",
        "65536",
        "65537",
        "99999",
        "100000",
        "4294967298",
        "18446744073709551618",
        "None",
        "none ",
        "nonE",
        "non",
        "nonee",
        "2\n",
    ];
    for (k, value) in bad.iter().enumerate() {
        let line = if *value == "2\n" { 7 } else { 6 };
        let text = RIGHT.replace("state.0=none", &format!("state.0={value}"));
        put_read(edges, &format!("state-value-{k}"), &text, 15, &[line]);
        let text = RIGHT.replace("goto.4=1", &format!("goto.4={value}"));
        let line = if *value == "2\n" { 10 } else { 9 };
        put_read(edges, &format!("goto-value-{k}"), &text, 15, &[line]);
    }
}

/// A header line must hold the caller's number and nothing more.
fn put_headers(edges: &mut Edges) {
    for header in ["sheet=1", "terminals=2", "symbols=5", "rules=3", "states=2"] {
        for (k, ending) in ["0", " ", "\r", "="].into_iter().enumerate() {
            let line = RIGHT.lines().position(|line| line == header).map_or(0, |k| k as u64 + 1);
            let text = RIGHT.replace(header, &format!("{header}{ending}"));
            put_read(edges, &format!("header-{line}-{k}"), &text, 15, &[line]);
        }
    }
}

/// Lines that are missing, doubled, swapped or have another key.
fn put_lines(edges: &mut Edges) {
    let texts: [(&str, String, u64); 12] = [
        ("sheet-2", RIGHT.replace("sheet=1", "sheet=2"), 1),
        ("terminals-03", RIGHT.replace("terminals=2", "terminals=02"), 2),
        ("terminals-none", RIGHT.replace("terminals=2", "terminals=none"), 2),
        ("symbols-other", RIGHT.replace("symbols=5", "symbols=6"), 3),
        ("rules-plus", RIGHT.replace("rules=3", "rules=+3"), 4),
        ("state-key", RIGHT.replace("state.1=3", "state.01=3"), 7),
        ("key-capital", RIGHT.replace("state.1=3", "State.1=3"), 7),
        ("state-twice", RIGHT.replace("state.1=3", "state.0=3"), 7),
        ("state-missing", RIGHT.replace("state.1=3\n", ""), 7),
        ("goto-T", RIGHT.replace("goto.3", "goto.2"), 8),
        ("gotos-swapped", RIGHT.replace("goto.3=none\ngoto.4=1", "goto.4=1\ngoto.3=none"), 8),
        ("empty-line", RIGHT.replace("goto.3", "\ngoto.3"), 8),
    ];
    for (name, text, line) in texts {
        put_read(edges, name, &text, 15, &[line]);
    }
}

/// Texts that end too early or too late.
fn put_ends(edges: &mut Edges) {
    put_read(edges, "right", RIGHT, 0, &[91]);
    put_read(edges, "empty", "", 15, &[1]);
    put_read(edges, "no-last-LF", &RIGHT[..90], 15, &[9]);
    put_read(edges, "no-last-line", &RIGHT[..82], 15, &[9]);
    put_read(edges, "first-line-cut", "sheet=1", 15, &[1]);
    put_read(edges, "first-line-alone", "sheet=1\n", 15, &[2]);
    for (k, more) in ["\n", "x", "\0", "goto.5=1\n"].into_iter().enumerate() {
        put_read(edges, &format!("bytes-after-{k}"), &format!("{RIGHT}{more}"), 15, &[10]);
    }
    let strange = RIGHT.replace("state.0=none", "state.0=9");
    put_read(edges, "line-before-sign", &format!("{strange}\n"), 15, &[10]);
}

/// Values in plain decimal whose range is left to SIGN.
fn put_signs(edges: &mut Edges) {
    for value in ["1", "4", "65535"] {
        let text = RIGHT.replace("state.0=none", &format!("state.0={value}"));
        put_read(edges, &format!("state-0-signs-{value}"), &text, 4, &[0, 0]);
    }
    for value in ["2", "65535"] {
        let text = RIGHT.replace("goto.4=1", &format!("goto.4={value}"));
        put_read(edges, &format!("goto-4-signs-{value}"), &text, 4, &[1, 4]);
    }
    let equal = RIGHT.replace("goto.3=none", "goto.3=1");
    put_read(edges, "equal-targets", &equal, 4, &[1, 4]);
    let both = equal.replace("state.1=3", "state.1=1");
    put_read(edges, "state-before-nonterminal", &both, 4, &[0, 1]);
    let highest = RIGHT.replace("state.0=none", "state.0=2");
    put_read(edges, "good-values", &highest, 0, &[88]);
}

/// A buffer of the sheet's length is enough; a bad signing is SIGN also where the buffer is short.
fn put_buffers(edges: &mut Edges) {
    let right = Signing { srule: vec![0, 3], sgoto: vec![0, 0, 1] };
    for (length, code, values) in
        [(0, 16, vec![]), (90, 16, vec![]), (91, 0, vec![91]), (92, 0, vec![91])]
    {
        let ask = Ask::SheetWrite { sizes: SIZES, signing: right.clone(), buffer: vec![7; length] };
        edges.put(format!("buffer-{length}"), ask, code, &values);
    }
    let bad: [BadSigning; 6] = [
        ("state-0-signs-1", [1, 3], [0, 0, 1], [0, 0]),
        ("state-1-signs-largest", [0, u32::MAX], [0, 0, 1], [0, 1]),
        ("T-signs-1", [0, 3], [1, 0, 0], [1, 2]),
        ("goto-3-signs-L", [0, 3], [0, 2, 1], [1, 3]),
        ("goto-4-signs-largest", [0, 3], [0, 0, u32::MAX], [1, 4]),
        ("equal-targets", [0, 3], [0, 1, 1], [1, 4]),
    ];
    for (name, srule, sgoto, values) in bad {
        let signing = Signing { srule: srule.to_vec(), sgoto: sgoto.to_vec() };
        for length in [0, 200] {
            let (signing, buffer) = (signing.clone(), vec![7; length]);
            let ask = Ask::SheetWrite { sizes: SIZES, signing, buffer };
            edges.put(format!("{name}-buffer-{length}"), ask, 4, &values);
        }
    }
    let Signing { srule, .. } = least(2, 5, 3, 3).signing;
    let signing = Signing { srule, sgoto: vec![9; 3] };
    let ask = Ask::SheetWrite { sizes: SIZES, signing, buffer: Vec::new() };
    edges.put("size-before-sign", ask, 1, &[]);
}
