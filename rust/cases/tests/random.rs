//! The random cases are the same for the same seed, and differ from seed to seed.

use cases::random::{random_case, Packed};
use cases::{judge_case, judge_cases, read, write, Given, Op};

/// A packer that packs nothing.
fn refusing(_: &Given, _: usize) -> Option<Packed> {
    None
}

#[test]
fn a_seed_always_gives_the_same_case() {
    for op in Op::ALL {
        for seed in [0, 1, 77, u64::MAX] {
            let case = random_case(op, seed, &refusing);
            assert_eq!(case, random_case(op, seed, &refusing));
            assert_eq!(case.name, format!("{}-{seed}", op.name()));
            assert_eq!(case.ask.op(), op);
        }
    }
}

#[test]
fn seeds_give_different_cases() {
    for op in Op::ALL {
        let mut texts: Vec<String> = Vec::new();
        for seed in 0..200 {
            let case = random_case(op, seed, &refusing);
            let text = write(&case, None);
            texts.push(text.split_once('\n').expect("a case line").1.to_string());
        }
        texts.sort();
        texts.dedup();
        assert!(texts.len() > 150, "{}: only {} of 200", op.name(), texts.len());
    }
}

#[test]
fn every_case_is_read_as_it_was_written() {
    for op in Op::ALL {
        for seed in 0..300 {
            let case = random_case(op, seed, &refusing);
            let text = write(&case, None);
            let entry = read(text.as_bytes()).next().expect("a case").expect("a well-formed case");
            assert!(entry.case == case, "{} differs", case.name);
        }
    }
}

#[test]
fn judge_cases_follow_their_seeds() {
    let list: Vec<(u64, Given)> = judge_cases(u64::MAX, 3).collect();
    let seeds: Vec<u64> = list.iter().map(|(seed, _)| *seed).collect();
    assert_eq!(seeds, [u64::MAX, 0, 1]);
    assert!(list.iter().all(|(seed, given)| *given == judge_case(*seed)));
    assert!(list[0].1 != list[1].1);
}
