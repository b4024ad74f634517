//! The house notation: random books and damaged ones, accepted exactly where document 01 allows them.

use slettrein::{house, Cells, Table};

/// Numbers that look random and are the same in each run.
struct Numbers(u64);

impl Numbers {
    /// A number below `n`.
    fn below(&mut self, n: usize) -> usize {
        self.0 =
            self.0.wrapping_mul(6_364_136_223_846_793_005).wrapping_add(1_442_695_040_888_963_407);
        ((self.0 >> 33) % n as u64) as usize
    }
}

/// The tokens of names with blanks between them.
fn tokens(names: &str) -> Vec<u32> {
    names.split_whitespace().map(|name| house::token(name).expect(name)).collect()
}

/// A random take.
fn take(numbers: &mut Numbers) -> Vec<u32> {
    tokens(["OPPOSITE", "EXACT NUMBER", "NOTHING"][numbers.below(3)])
}

/// A random variant, with each field as document 01 has it.
fn variant(numbers: &mut Numbers) -> Vec<u32> {
    let mut variant = tokens("VARIANT NAME PITS EQUALS NUMBER SEEDS EQUALS NUMBER SOW EQUALS");
    variant.extend(tokens(["LEFT", "RIGHT"][numbers.below(2)]));
    variant.extend(tokens("LAPS EQUALS"));
    variant.extend(tokens(["SINGLE", "RELAY"][numbers.below(2)]));
    variant.extend(tokens("CAPTURE EQUALS"));
    variant.extend(take(numbers));
    for _ in 0..numbers.below(3) {
        variant.extend(tokens("THEN"));
        variant.extend(take(numbers));
    }
    variant
}

/// Takes joined by THEN, from a place on: the place after them, if there are such.
fn takes(book: &[u32], mut at: usize) -> Option<usize> {
    loop {
        at = match book.get(at..)? {
            [14, ..] | [16, ..] => at + 1,
            [15, 9, ..] => at + 2,
            _ => return None,
        };
        if book.get(at) != Some(&17) {
            return Some(at);
        }
        at += 1;
    }
}

/// Whether document 01 allows the book: one or more variants, read from left to right.
fn allowed(book: &[u32]) -> bool {
    let mut at = 0;
    while at < book.len() {
        match &book[at..] {
            [1, 2, 3, 8, 9, 4, 8, 9, 5, 8, 10 | 11, 6, 8, 12 | 13, 7, 8, ..] => {}
            _ => return false,
        }
        match takes(book, at + 16) {
            Some(after) => at = after,
            None => return false,
        }
    }
    !book.is_empty()
}

/// A change at one place: a token left out, put twice, or made another.
fn damage(numbers: &mut Numbers, book: &mut Vec<u32>) {
    let at = numbers.below(book.len());
    match numbers.below(3) {
        0 => drop(book.remove(at)),
        1 => book.insert(at, book[at]),
        _ => book[at] = 1 + numbers.below(17) as u32,
    }
}

/// The table and its cells.
fn packed() -> (Table, Cells) {
    let table = house::table();
    table.check(&table.unsigned()).expect("it passes the check");
    let cells = table.pack(&table.unsigned()).expect("it is packed");
    (table, cells)
}

#[test]
fn books_are_accepted_exactly_where_they_are_allowed() {
    let (table, cells) = packed();
    let (mut numbers, mut accepted, mut refused) = (Numbers(5), 0, 0);
    for turn in 0..20_000 {
        let mut book: Vec<u32> =
            (0..1 + numbers.below(4)).flat_map(|_| variant(&mut numbers)).collect();
        if turn % 3 > 0 {
            damage(&mut numbers, &mut book);
        }
        let parse = cells.parse(&book);
        assert_eq!(parse.is_ok(), allowed(&book), "{book:?}");
        assert_eq!(parse, table.plain_parse(&table.unsigned(), &book), "{book:?}");
        accepted += usize::from(parse.is_ok());
        refused += usize::from(parse.is_err());
    }
    assert!(accepted > 6_000 && refused > 10_000, "{accepted} {refused}");
}

#[test]
fn a_variant_without_its_capture_field_is_refused_wherever_it_stands() {
    let (_, cells) = packed();
    let mut numbers = Numbers(9);
    for lacking in 0..6 {
        let mut book = Vec::new();
        for place in 0..6 {
            let variant = variant(&mut numbers);
            let end = if place == lacking { 14 } else { variant.len() };
            book.extend(&variant[..end]);
        }
        assert!(cells.parse(&book).is_err(), "{lacking}");
    }
}
