//! The page is closed in all its tags, needs no script, and marks exactly what is signed.

use audit::{page, Asked};

use crate::found::Found;
use crate::tables::{asked, audited, random_tables, NAMES};

/// Seeds of random tables that are looked at.
const SEEDS: u64 = 500;

/// Whether every tag of a page is closed in its turn, and none of them is a script.
fn is_closed(page: &str) -> bool {
    let mut open = Vec::new();
    for tag in page.split('<').skip(1).filter_map(|part| part.split_once('>')).map(|(tag, _)| tag) {
        let name = tag.split(' ').next().unwrap_or_default();
        match name.strip_prefix('/') {
            Some(name) if open.pop() != Some(name) => return false,
            None if !tag.ends_with('/') && !tag.starts_with('!') => open.push(name),
            _ => {}
        }
    }
    open.is_empty() && !page.contains("<script")
}

/// The cells of a class that a page draws.
fn drawn(page: &str, class: &str) -> Vec<usize> {
    let end = format!("\" class=\"{class}\"");
    let cells = page.split("id=\"cell-").skip(1).filter_map(|part| part.split_once(&end));
    cells.filter_map(|(cell, _)| cell.parse().ok()).collect()
}

/// Looks at the page of a good table: the cells marked as signed are those of the second program.
fn look(asked: &Asked) {
    let (packed, report) = audited(asked);
    let page = page(&packed, &report);
    assert!(is_closed(&page), "{page}");
    let found = Found::new(&asked.given);
    let mut rules: Vec<usize> = found.rules.iter().map(|signed| signed.cell).collect();
    rules.sort_unstable();
    assert_eq!(drawn(&page, "signed-rule"), rules);
    let gotos: Vec<usize> = found.gotos.iter().map(|signed| signed.cell).collect();
    assert_eq!(drawn(&page, "signed-goto"), gotos);
    assert_eq!(page.matches("<li id=").count(), packed.cells.base().len());
    assert_eq!(page.contains("Nothing is signed"), rules.is_empty() && gotos.is_empty());
}

#[test]
fn the_pages_of_the_example_tables_mark_what_is_signed() {
    NAMES.iter().for_each(|name| look(&asked(name)));
}

#[test]
fn the_pages_of_random_tables_mark_what_is_signed() {
    let count = random_tables(SEEDS).inspect(look).count();
    assert!(count as u64 > SEEDS / 2, "{count} tables");
}

#[test]
fn the_name_of_a_table_is_no_part_of_the_page() {
    let mut asked = asked("board");
    asked.name = "a <script>&\u{7}".to_string();
    let (packed, report) = audited(&asked);
    let page = page(&packed, &report);
    assert!(is_closed(&page));
    assert!(page.contains("<h1>Audit of a packed table: a &lt;script&gt;&amp;?</h1>"), "{page}");
}

#[test]
fn tags_are_looked_at() {
    assert!(is_closed("<p>a<br/><b c=\"d\">e</b></p>"));
    assert!(!is_closed("<p><b></p></b>"));
    assert!(!is_closed("<p><b></b>"));
    assert!(!is_closed("<script></script>"));
}
