//! The examples of docs/TEXT.md: each text has the answer that the page tells.

use reference::printing::printed_rows;
use reference::{read_text, Source};
use std::fs;
use std::path::Path;

/// The page.
fn page() -> String {
    let file = Path::new(env!("CARGO_MANIFEST_DIR")).join("../../docs/TEXT.md");
    fs::read_to_string(file).expect("the page is there")
}

#[test]
fn the_example_is_accepted() {
    let page = page();
    let example = page.split("```\n").nth(1).expect("an example");
    let checked = Source::Text(example.as_bytes()).checked();
    assert!(checked.verdict.is_ok());
}

/// What stands between backquotes in a cell.
fn quoted(cell: &str) -> Vec<&str> {
    cell.split('`').skip(1).step_by(2).collect()
}

#[test]
fn refused_examples_are_refused_so() {
    let page = page();
    let (_, examples) = page
        .split_once("| Text | Answer | Why |\n")
        .expect("a table");
    let mut count = 0;
    for line in examples
        .lines()
        .take_while(|line| line.starts_with('|'))
        .skip(1)
    {
        let cells: Vec<&str> = line.split('|').collect();
        let text = quoted(cells[1]).join("\n") + "\n";
        let read = printed_rows(&read_text(text.as_bytes()));
        assert_eq!(vec![read.trim_end()], quoted(cells[2]), "{text}");
        count += 1;
    }
    assert!(count >= 5, "{count} examples");
}
