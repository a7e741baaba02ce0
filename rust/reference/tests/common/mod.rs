//! Small tables written as rows with spaces between them; the stored cases; counts by sort.
#![allow(dead_code)]

pub mod clashes;
pub mod ends;
pub mod joins;
pub mod slow_text;

use reference::printing::printed;
use reference::{answer_bytes, Answer, Ran, Source, BUDGET_LIMIT, BUFFER_LENGTHS};
use std::collections::BTreeMap;
use std::fs;
use std::path::{Path, PathBuf};

/// How often each sort came.
pub type Tally = BTreeMap<&'static str, usize>;

/// Asks for so many of each sort at least.
pub fn assert_enough(found: &Tally, least: &[(&str, usize)]) {
    for (sort, least) in least {
        assert!(found.get(sort) >= Some(least), "{sort} in {found:?}");
    }
}

/// Whether a stored case is of a text and not of a table.
pub fn is_of_a_text(case: &Path) -> bool {
    let words = fs::read_to_string(case.with_extension("args")).unwrap_or_default();
    let mut words = words.split_whitespace();
    words.any(|word| ["--text", "--read"].contains(&word))
}

/// The files of the stored cases' inputs.
fn stored_files() -> impl Iterator<Item = PathBuf> {
    let folder = Path::new(env!("CARGO_MANIFEST_DIR")).join("../../cases");
    let files = fs::read_dir(folder).expect("the folder is there");
    files
        .map(|file| file.expect("a file").path())
        .filter(|path| path.extension().is_some_and(|extension| extension == "in"))
}

/// The file's name and its bytes.
fn named_bytes(path: PathBuf) -> (String, Vec<u8>) {
    (path.display().to_string(), fs::read(&path).expect("bytes"))
}

/// The inputs of the stored cases of tables, with their files.
pub fn stored_inputs() -> impl Iterator<Item = (String, Vec<u8>)> {
    let tables = stored_files().filter(|path| !is_of_a_text(path));
    tables.map(named_bytes)
}

/// The inputs of the stored cases of texts, with their files.
pub fn stored_texts() -> impl Iterator<Item = (String, Vec<u8>)> {
    stored_files()
        .filter(|path| is_of_a_text(path))
        .map(named_bytes)
}

/// The bytes of a table of these rows.
pub fn table(rows: &str) -> Vec<u8> {
    let lines: Vec<&str> = std::iter::once("kind,a,b,c")
        .chain(rows.split_whitespace())
        .collect();
    (lines.join("\n") + "\n").into_bytes()
}

/// What the sheet runner prints for these rows and this sheet.
pub fn print(rows: &str, sheet: &str) -> String {
    print_bytes(&table(rows), sheet.as_bytes())
}

/// What the sheet runner prints for this table and sheet.
pub fn print_bytes(table: &[u8], sheet: &[u8]) -> String {
    let answer = answer_bytes(table, sheet, &[], BUDGET_LIMIT, BUFFER_LENGTHS);
    printed(&answer, false)
}

/// The number and place of a refusal, or (0, 0).
pub fn refusal_of(answer: &Answer) -> (u8, u32) {
    match answer {
        Answer::Refused(refusal) => (refusal.number, refusal.place),
        Answer::Ran(_) => (0, 0),
    }
}

/// The refusal of these rows beside a sheet of one empty line.
pub fn refused(rows: &str) -> (u8, u32) {
    refused_bytes(&table(rows), b"\n")
}

/// The refusal of this table and sheet.
pub fn refused_bytes(table: &[u8], sheet: &[u8]) -> (u8, u32) {
    refusal_of(&answer_bytes(
        table,
        sheet,
        &[],
        BUDGET_LIMIT,
        BUFFER_LENGTHS,
    ))
}

/// The refusal of rows lent as numbers.
pub fn refused_numbers(numbers: &[i32]) -> (u8, u32) {
    refusal_of(&Source::Numbers(numbers).answer(b"\n", &[], BUDGET_LIMIT, BUFFER_LENGTHS))
}

/// The result of these rows with a sheet, choices and a budget.
pub fn ran(rows: &str, sheet: &str, choices: &[u16], budget: u64) -> Box<Ran> {
    match answer_bytes(
        &table(rows),
        sheet.as_bytes(),
        choices,
        budget,
        BUFFER_LENGTHS,
    ) {
        Answer::Ran(ran) => ran,
        Answer::Refused(refusal) => panic!("{refusal} for {rows}"),
    }
}

/// Outcome and steps of these rows without readings, choices and with the runner's budget.
pub fn outcome(rows: &str) -> (&'static str, u64) {
    let ran = ran(rows, "\n", &[], BUDGET_LIMIT);
    (ran.outcome.word(), ran.steps)
}

/// The rows of a process or expression that begins at this row: a field `+N` is its own row plus N.
pub fn moved(rows: &str, start: usize) -> String {
    let field = |field: &str| match field.strip_prefix('+').map(str::parse::<usize>) {
        Some(Ok(offset)) => (start + offset).to_string(),
        _ => field.to_string(),
    };
    let row = |row: &str| row.split(',').map(field).collect::<Vec<_>>().join(",");
    rows.split_whitespace()
        .map(row)
        .collect::<Vec<_>>()
        .join(" ")
}
