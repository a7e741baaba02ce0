//! The stored cases of `cases/` through `occam-table`: the printed lines, byte for byte.

use std::fs::{self, File};
use std::path::{Path, PathBuf};
use std::process::{Command, Output};

/// The words that neither `run` nor `ready` has: these cases are for other commands, or for the
/// separate program.
const OTHER_WORDS: [&str; 7] = [
    "--lengths",
    "--numbers",
    "--check",
    "--full",
    "--trace",
    "--explore",
    "--read",
];

/// The word of cases that run or check a text.
const TEXT: &str = "--text";

/// The table up to the first line `=`, and the readings after it.
fn parted(input: &[u8]) -> (&[u8], &[u8]) {
    let mut start = 0;
    for line in input.split_inclusive(|&byte| byte == b'\n') {
        if line == b"=\n" {
            return (&input[..start], &input[start + line.len()..]);
        }
        start += line.len();
    }
    (input, &[])
}

/// The words of a case.
fn words(case: &Path) -> Vec<String> {
    let line = fs::read_to_string(case.with_extension("args")).unwrap_or_default();
    line.split_whitespace().map(str::to_string).collect()
}

/// The words of a case for `check` after `--check`, if it has them all.
fn flags_of_check(case: &Path) -> Option<Vec<String>> {
    let words = words(case);
    let (first, flags) = words.split_first()?;
    let known = first == "--check" && flags.iter().all(|flag| flag == "--pairs" || flag == TEXT);
    known.then(|| flags.to_vec())
}

/// What the program printed; its status tells a refusal.
fn checked(case: &Path, output: Output) -> String {
    let text = String::from_utf8(output.stdout).expect("text");
    let status = if text.starts_with("refused") { 1 } else { 0 };
    assert_eq!(output.status.code(), Some(status), "{}", case.display());
    text
}

/// What `run` prints for the table and the sheet of a case in two files.
fn printed(case: &Path, folder: &Path, words: &[String]) -> String {
    let input = fs::read(case).expect("bytes");
    let (table, sheet) = parted(&input);
    let (table_file, sheet_file) = (folder.join("table.csv"), folder.join("sheet.csv"));
    fs::write(&table_file, table).expect("written");
    fs::write(&sheet_file, sheet).expect("written");
    let output = Command::new(env!("CARGO_BIN_EXE_occam-table"))
        .arg("run")
        .args([&table_file, &sheet_file])
        .args(words)
        .output()
        .expect("the program starts");
    checked(case, output)
}

/// What a command prints for a case on standard input with `--plain`: on standard output only.
fn printed_plain(command: &str, case: &Path, words: &[String]) -> String {
    let output = Command::new(env!("CARGO_BIN_EXE_occam-table"))
        .args([command, "-", "--plain"])
        .args(words)
        .stdin(File::open(case).expect("it is there"))
        .output()
        .expect("the program starts");
    assert!(output.stderr.is_empty(), "{}", case.display());
    checked(case, output)
}

/// A folder for this test alone.
fn own_folder(name: &str) -> PathBuf {
    let folder =
        std::env::temp_dir().join(format!("occam-table-cases-{}-{name}", std::process::id()));
    fs::create_dir_all(&folder).expect("made");
    folder
}

#[test]
fn stored_cases_print_what_is_stored() {
    let cases = Path::new(env!("CARGO_MANIFEST_DIR")).join("../../cases");
    let folder = own_folder("runs");
    let mut count = 0;
    for file in fs::read_dir(cases).expect("the folder is there") {
        let case = file.expect("a file").path();
        let words = words(&case);
        let (command, words) = match words.iter().position(|word| word == "--ready") {
            Some(at) => ("ready", [&words[..at], &words[at + 1..]].concat()),
            None => ("run", words),
        };
        let other = words
            .iter()
            .any(|word| OTHER_WORDS.contains(&word.as_str()));
        if other || case.extension().is_none_or(|extension| extension != "in") {
            continue;
        }
        let stored = fs::read_to_string(case.with_extension("out")).expect("stored");
        let name = case.display();
        // of a text only the plain lines are those of the sheet runner
        if command == "run" && !words.iter().any(|word| word == TEXT) {
            assert_eq!(printed(&case, &folder, &words), stored, "{name}");
        }
        assert_eq!(printed_plain(command, &case, &words), stored, "{name}");
        count += 1;
    }
    fs::remove_dir_all(&folder).expect("it is there");
    assert!(count > 400, "{count} cases");
}

#[test]
fn stored_verdicts_are_those_of_check() {
    let cases = Path::new(env!("CARGO_MANIFEST_DIR")).join("../../cases");
    let folder = own_folder("verdicts");
    let mut count = 0;
    for file in fs::read_dir(cases).expect("the folder is there") {
        let case = file.expect("a file").path();
        let is_case = case.extension().is_some_and(|extension| extension == "in");
        let Some(flags) = flags_of_check(&case).filter(|_| is_case) else {
            continue;
        };
        let input = fs::read(&case).expect("bytes");
        let table = folder.join("verdict.in");
        fs::write(&table, parted(&input).0).expect("written");
        let stored = fs::read_to_string(case.with_extension("out")).expect("stored");
        let name = case.display();
        assert_eq!(printed_plain("check", &table, &flags), stored, "{name}");
        count += 1;
    }
    fs::remove_dir_all(&folder).expect("it is there");
    assert!(count > 100, "{count} verdicts");
}

#[test]
fn stored_readings_are_those_of_read() {
    let cases = Path::new(env!("CARGO_MANIFEST_DIR")).join("../../cases");
    let folder = own_folder("readings");
    let mut count = 0;
    for file in fs::read_dir(cases).expect("the folder is there") {
        let case = file.expect("a file").path();
        let is_case = case.extension().is_some_and(|extension| extension == "in");
        if !is_case || words(&case) != ["--read"] {
            continue;
        }
        let input = fs::read(&case).expect("bytes");
        let text = folder.join("text.in");
        fs::write(&text, parted(&input).0).expect("written");
        let stored = fs::read_to_string(case.with_extension("out")).expect("stored");
        assert_eq!(
            printed_plain("read", &text, &[]),
            stored,
            "{}",
            case.display()
        );
        count += 1;
    }
    fs::remove_dir_all(&folder).expect("it is there");
    assert!(count > 200, "{count} readings");
}
