//! What the second program says of a table's signatures, found in its cells by its reads alone.

use std::ops::Range;

use audit::{Report, SignedGoto, SignedRule};
use cases::{Array, Ask, Cells, Given};
use replay::{Program, Second};

/// As many cells are lent to the second program.
const WIDTH: usize = 4_096;

/// What a read of the second program says where the cells are blank.
const BLANK: [u64; 1] = [4];

/// The signatures and the blanks of a table.
#[derive(Debug, PartialEq, Eq)]
pub struct Found {
    pub rules: Vec<SignedRule>,
    pub gotos: Vec<SignedGoto>,
    pub rule_cells: usize,
    pub goto_cells: usize,
    pub blank_actions: Vec<(usize, Vec<usize>)>,
    pub blank_gotos: Vec<(usize, Vec<usize>)>,
}

impl Found {
    /// What the second program says of a good table: as it is signed, compared with nothing signed.
    pub fn new(given: &Given) -> Found {
        let mut unsigned = given.clone();
        unsigned.signing.srule.fill(0);
        unsigned.signing.sgoto.fill(0);
        let (signed, plain) = (Packing::new(given), Packing::new(&unsigned));
        let (states, terminals) = (0..given.sizes.states, 0..given.sizes.terminals);
        let nonterminals = given.sizes.terminals + 1..given.sizes.symbols;
        let blank = |s: usize, a: usize| signed.reads[s][a] == BLANK;
        let actions = states.clone().map(|s| (s, listed(&terminals, |a| blank(s, a))));
        let gotos = nonterminals.clone().map(|a| (a, listed(&states, |s| blank(s, a))));
        Found {
            blank_actions: actions.filter(|(_, list)| !list.is_empty()).collect(),
            blank_gotos: gotos.filter(|(_, list)| !list.is_empty()).collect(),
            rules: states.clone().filter_map(|s| rule(&signed, &plain, &terminals, s)).collect(),
            gotos: nonterminals.clone().filter_map(|a| goto(&signed, &plain, a)).collect(),
            rule_cells: signed.check.iter().filter(|&&check| check < 0).count(),
            goto_cells: nonterminals.filter(|&a| signed.check[2 * a] == a as i32).count(),
        }
    }

    /// What a report says.
    pub fn told(report: &Report) -> Found {
        let Report { rules, gotos, rule_cells, goto_cells, blank_actions, blank_gotos, .. } =
            report.clone();
        Found { rules, gotos, rule_cells, goto_cells, blank_actions, blank_gotos }
    }

    /// The blanks that the signed rules fill.
    pub fn filled_by_rules(&self) -> usize {
        self.rules.iter().map(|signed| signed.fills.len()).sum()
    }

    /// The blanks that the signed gotos fill.
    pub fn filled_by_gotos(&self) -> usize {
        self.gotos.iter().map(|signed| signed.fills.len()).sum()
    }

    /// The blanks that nobody has signed for.
    pub fn left(&self) -> usize {
        self.blank_actions.iter().chain(&self.blank_gotos).map(|(_, list)| list.len()).sum()
    }
}

/// What the second program packs a table into, and for each state what it reads there for each symbol.
struct Packing {
    check: Vec<i32>,
    place: Vec<u32>,
    reads: Vec<Vec<Vec<u64>>>,
}

impl Packing {
    /// The packing of a good table.
    fn new(given: &Given) -> Packing {
        let lent = Cells { base: vec![0; WIDTH], check: vec![0; WIDTH] };
        let (marks, place) = (vec![0; WIDTH], vec![0; given.sizes.states]);
        let ask = Ask::Pack { given: given.clone(), cells: lent, marks, place };
        let arrays = Second.answer(&ask).arrays.into_iter().map(|(_, array)| array);
        let Ok([Array::Signed(base), Array::Signed(check), _, Array::Unsigned(place)]) =
            <[Array; 4]>::try_from(arrays.collect::<Vec<Array>>())
        else {
            panic!("Base, Check, marks and the place list")
        };
        let cells = Cells { base, check: check.clone() };
        Packing { reads: reads(given, cells, &place), check, place }
    }

    /// The cell of a state.
    fn cell(&self, state: usize) -> usize {
        self.place[state] as usize
    }
}

/// What the second program reads at each state's cell for each symbol.
fn reads(given: &Given, cells: Cells, place: &[u32]) -> Vec<Vec<Vec<u64>>> {
    let mut ask = Ask::Read { counts: given.sizes.counts(), cells, x: 0, a: 0 };
    let mut read = |cell: usize, symbol: usize| {
        if let Ask::Read { x, a, .. } = &mut ask {
            (*x, *a) = (cell, symbol);
        }
        let answer = Second.answer(&ask);
        assert_eq!(answer.code, Some(0), "packed cells can be read");
        answer.values
    };
    let symbols = 0..given.sizes.symbols;
    let row = |cell: &u32| symbols.clone().map(|symbol| read(*cell as usize, symbol)).collect();
    place.iter().map(row).collect()
}

/// The rule beside a state: it fills where nothing signed is blank, and repeats where that has the rule.
fn rule(
    signed: &Packing,
    plain: &Packing,
    terminals: &Range<usize>,
    state: usize,
) -> Option<SignedRule> {
    let cell = signed.cell(state) + 1;
    let rule = usize::try_from(-signed.check[cell]).ok()?;
    let reduce = [2, rule as u64];
    let answers = |a: usize| signed.reads[state][a] == reduce;
    let fills = listed(terminals, |a| answers(a) && plain.reads[state][a] == BLANK);
    let repeats = listed(terminals, |a| answers(a) && plain.reads[state][a] == reduce);
    Some(SignedRule { state, rule, cell, fills, repeats })
}

/// The state at 2A: it fills where nothing signed is blank, and repeats where that goes to the same state.
fn goto(signed: &Packing, plain: &Packing, nonterminal: usize) -> Option<SignedGoto> {
    let cell = 2 * nonterminal;
    if signed.check[cell] != nonterminal as i32 {
        return None;
    }
    let state = signed.place.iter().position(|&place| place as usize == cell)?;
    let states = 0..signed.place.len();
    let to = [plain.cell(state) as u64];
    let answers = |s: usize| signed.reads[s][nonterminal] == [0, cell as u64];
    let fills = listed(&states, |s| answers(s) && plain.reads[s][nonterminal] == BLANK);
    let repeats = listed(&states, |s| answers(s) && plain.reads[s][nonterminal][1..] == to);
    Some(SignedGoto { nonterminal, state, cell, fills, repeats })
}

/// The numbers for which something holds.
fn listed(numbers: &Range<usize>, holds: impl Fn(usize) -> bool) -> Vec<usize> {
    numbers.clone().filter(|&number| holds(number)).collect()
}
