//! The text form of a case: what is asked, and the lines that must be said.

use std::collections::HashMap;

/// A key and the numbers after it.
pub type Line = (String, Vec<i64>);

/// A case: what is asked, by key, and the lines that must be said, in their order.
pub struct Case {
    pub name: String,
    pub op: String,
    pub said: Vec<Line>,
    asked: HashMap<String, Vec<i64>>,
}

impl Case {
    /// A case of which nothing but the name is known.
    fn new(name: &str) -> Case {
        Case { name: name.into(), op: String::new(), said: Vec::new(), asked: HashMap::new() }
    }

    /// The numbers of a key, in the type that they are wanted in.
    pub fn list<N: TryFrom<i64>>(&self, key: &str) -> Vec<N> {
        let Some(numbers) = self.asked.get(key) else {
            panic!("case {}: no {key}", self.name);
        };
        numbers.iter().map(|&number| N::try_from(number).ok().expect("a number in range")).collect()
    }

    /// Takes in a line that is not its first or its last.
    fn add(&mut self, text: &str) {
        if let Some(op) = text.strip_prefix("op ") {
            self.op = op.to_string();
        } else if let Some(said) = text.strip_prefix("> ") {
            self.said.push(key_and_numbers(said));
        } else {
            let (key, numbers) = key_and_numbers(text);
            let again = self.asked.insert(key, numbers).is_some();
            assert!(!again, "case {}: {text} comes twice", self.name);
        }
    }
}

/// The cases of a file, in its order.
pub fn cases(text: &str) -> Vec<Case> {
    let mut cases = Vec::new();
    let mut open: Option<Case> = None;
    for line in text.lines().filter(|line| !line.starts_with('#')) {
        if let Some(name) = line.strip_prefix("case ") {
            assert!(open.is_none(), "case {name} begins inside another");
            open = Some(Case::new(name));
        } else if line == "end" {
            cases.push(open.take().expect("a case that ends"));
        } else {
            open.as_mut().expect("a line inside a case").add(line);
        }
    }
    assert!(open.is_none(), "the last case has no end");
    cases
}

/// A line with this key and these numbers.
pub fn line<N: Copy + TryInto<i64>>(key: &str, numbers: &[N]) -> Line {
    let number = |&number: &N| number.try_into().ok().expect("a number that fits");
    (key.to_string(), numbers.iter().map(number).collect())
}

/// Takes a line apart into its key and its numbers.
fn key_and_numbers(text: &str) -> Line {
    let mut words = text.split(' ');
    let key = words.next().expect("a key").to_string();
    (key, words.map(|word| word.parse().expect("a number")).collect())
}
