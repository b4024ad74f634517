//! Every vector file through the programs gives the file again, comments apart.

use std::fs;
use std::io::BufReader;
use std::path::PathBuf;

use cases::{read, write};
use replay::{Product, Program, Second};

/// The paths and texts of all vector files.
fn vectors() -> Vec<(PathBuf, String)> {
    let folder = concat!(env!("CARGO_MANIFEST_DIR"), "/../../vectors");
    let files = fs::read_dir(folder).expect("the folder of vectors");
    let paths = files.map(|file| file.expect("a file of that folder").path());
    let texts = paths.filter(|path| path.extension().is_some_and(|end| end == "txt"));
    texts.map(|path| (path.clone(), fs::read_to_string(&path).expect("a readable file"))).collect()
}

#[test]
fn the_second_program_gives_every_file_byte_for_byte() {
    let vectors = vectors();
    assert_eq!(vectors.len(), 8);
    for (path, text) in vectors {
        let mut found = String::new();
        for entry in read(BufReader::new(text.as_bytes())) {
            let case = entry.expect("a well-formed case").case;
            found += &write(&case, Some(&Second.answer(&case.ask)));
        }
        let lines = text.split_inclusive('\n').filter(|line| !line.starts_with('#'));
        assert!(found == lines.collect::<String>(), "{} differs", path.display());
    }
}

#[test]
fn the_product_gives_the_answers_of_the_files() {
    for (path, text) in vectors() {
        for entry in read(BufReader::new(text.as_bytes())) {
            let entry = entry.expect("a well-formed case");
            let found = Product.answer(&entry.case.ask);
            let expected = entry.answer().expect("a well-formed answer");
            assert!(found == expected, "{}: {}", path.display(), entry.case.name);
        }
    }
}
