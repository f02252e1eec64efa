//! The list of calls that the proved program `cases` compares.

use std::fs;

use judge::lines;

/// The file stdin of `cases` ends with the plain program's list, as `calls 1 700` writes it. What stands before is held by tests/cases.
#[test]
fn the_list_of_cases_is_plains() {
    let file = concat!(env!("CARGO_MANIFEST_DIR"), "/../../crates/cases/stdin");
    let stored = fs::read_to_string(file).expect(file);
    let mut list = Vec::new();
    lines::write(&mut list, 1, 700).unwrap();
    let list = String::from_utf8(list).unwrap();
    let begins = stored.find(&format!("\n{}\n", lines::HEADING)).expect("the heading of the list");
    assert!(stored[begins..] == list, "{file} has another list; `tests/cases/check --write` makes it anew");
}
