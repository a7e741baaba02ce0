//! The command line against stored outputs.
//!
//! A file `commands/NAME.txt` holds a command line after `$ `, what it prints on standard output,
//! after `--- error` what it prints on standard error (if anything), and after `--- status` its
//! exit status. It runs in the folder `commands`; ` < FILE` at its end is standard input, which is
//! empty otherwise. The time of a check is stored as `...`. `OCCAM_STORE=1` writes the files anew:
//! read them before they are kept.

use reference::generate::occam::text_input;
use reference::generate::random::Random;
use reference::printing::split_input;
use std::fs::{self, File};
use std::path::{Path, PathBuf};
use std::process::{Command, Stdio};

/// The folder of the stored outputs.
fn folder() -> PathBuf {
    Path::new(env!("CARGO_MANIFEST_DIR")).join("tests/commands")
}

/// The line that tells the time of a check, up to the time.
const TIME: &str = "time of the check: ";

/// The lines of a text, the time of a check as `...`.
fn without_time(text: &str) -> String {
    let line = |line: &str| match line.starts_with(TIME) {
        true => format!("{TIME}...\n"),
        false => line.to_string(),
    };
    text.split_inclusive('\n').map(line).collect()
}

/// What a command line prints, in the stored form.
fn printed(line: &str) -> String {
    let words = line.strip_prefix("$ occam-table").expect("a command line");
    let (words, input) = match words.split_once(" < ") {
        Some((words, file)) => {
            let file = File::open(folder().join(file)).expect("it is there");
            (words, Stdio::from(file))
        }
        None => (words, Stdio::null()),
    };
    let output = Command::new(env!("CARGO_BIN_EXE_occam-table"))
        .args(words.split_whitespace())
        .current_dir(folder())
        .stdin(input)
        .output()
        .expect("the program starts");
    let text = |bytes: Vec<u8>| String::from_utf8(bytes).expect("text");
    let (out, error) = (without_time(&text(output.stdout)), text(output.stderr));
    let status = output.status.code().expect("a status");
    let error = match error.is_empty() {
        true => String::new(),
        false => format!("--- error\n{error}"),
    };
    format!("{line}\n{out}{error}--- status {status}\n")
}

#[test]
fn stored_outputs() {
    let store = std::env::var_os("OCCAM_STORE").is_some();
    assert!(occam_table::is_linked(), "{}", occam_table::MISSING);
    let mut failed = Vec::new();
    let mut count = 0;
    for entry in fs::read_dir(folder()).expect("the folder is there") {
        let path = entry.expect("an entry").path();
        if path.extension().is_none_or(|extension| extension != "txt") {
            continue;
        }
        let stored = fs::read_to_string(&path).expect("text");
        let printed = printed(stored.lines().next().expect("a first line"));
        count += 1;
        if store {
            fs::write(&path, &printed).expect("written");
        } else if stored != printed {
            failed.push(format!("{}:\n{printed}", path.display()));
        }
    }
    assert!(count > 80, "{count} commands");
    assert!(failed.is_empty(), "{}", failed.join("\n"));
}

/// The number of the refusal that a stored output tells, if it tells one.
fn refusal_told(stored: &str) -> Option<u32> {
    let told = stored.lines().find_map(|line| {
        line.strip_prefix("refused: number ")
            .or_else(|| line.strip_prefix("refused,"))
    })?;
    told.split(',').next()?.parse().ok()
}

#[test]
fn every_refusal_that_a_small_file_can_provoke_is_stored() {
    let files = fs::read_dir(folder()).expect("the folder is there");
    let texts = files.map(|entry| fs::read_to_string(entry.expect("an entry").path()));
    let told: Vec<u32> = texts.filter_map(|text| refusal_told(&text.ok()?)).collect();
    for number in [2, 4, 5, 6, 7, 8, 9, 10, 11, 12, 13, 14] {
        assert!(told.contains(&number), "{number}");
    }
}

/// Writes a file for one test, and tells its name.
fn write(name: &str, text: impl AsRef<[u8]>) -> String {
    let path = std::env::temp_dir().join(format!("occam-table-{}-{name}", std::process::id()));
    fs::write(&path, text.as_ref()).expect("written");
    path.display().to_string()
}

/// Runs a command on files and tells its status and standard output; removes the files.
fn told(command: &str, files: &[String]) -> (Option<i32>, String) {
    let output = Command::new(env!("CARGO_BIN_EXE_occam-table"))
        .arg(command)
        .args(files)
        .output()
        .expect("the program starts");
    for file in files {
        fs::remove_file(file).expect("it is there");
    }
    let text = String::from_utf8(output.stdout).expect("text");
    (output.status.code(), text)
}

#[test]
fn large_files() {
    let rows = format!("kind,a,b,c\n30,-1,0,0\n{}", "21,0,0,0\n".repeat(1_024));
    let (status, text) = told("check", &[write("rows.csv", &rows)]);
    assert_eq!(status, Some(1));
    assert!(
        text.starts_with("refused: number 3, after 1024 rows\n"),
        "{text}"
    );
    assert!(
        text.contains("the table has 1025 rows; at most 1024"),
        "{text}"
    );
    assert!(text.contains("line 1026: 21,0,0,0"), "{text}");

    let long = format!("kind,a,b,c\n{}", "7".repeat(32_758));
    let (status, text) = told("check", &[write("long.csv", &long)]);
    assert_eq!(status, Some(1));
    assert!(text.starts_with("refused: number 2, place 0\n"), "{text}");
    assert!(text.contains("has 32769 bytes; at most 32768"), "{text}");

    let table = "kind,a,b,c\n2,1,1,0\n21,0,0,0\n";
    let long = format!("0\n{}", "7".repeat(16_384));
    let files = [write("reads.csv", table), write("long.sheet.csv", &long)];
    let (status, text) = told("run", &files);
    assert_eq!((status, text.as_str()), (Some(1), "refused,10,0,0\n"));

    let many = format!("0\n{}", "7\n".repeat(129));
    let files = [write("reads2.csv", table), write("many.sheet.csv", &many)];
    let (status, text) = told("run", &files);
    assert_eq!((status, text.as_str()), (Some(1), "refused,10,130,0\n"));
}

#[test]
fn every_byte() {
    let bytes: Vec<u8> = (0..=255).collect();
    let (status, text) = told("check", &[write("bytes.occam", bytes)]);
    assert_eq!(status, Some(1));
    assert!(
        text.starts_with("refused: number 12, line 1 of the text\n"),
        "{text}"
    );
    assert!(text.contains("column 1: \"\\0\" stands there"), "{text}");
}

#[test]
fn large_texts() {
    let long = format!("INT x:\n{}", "7".repeat(32_762));
    let (status, text) = told("check", &[write("long.occam", &long)]);
    assert_eq!(status, Some(1));
    assert!(text.starts_with("refused: number 12, place 0\n"), "{text}");
    assert!(text.contains("has 32769 bytes; at most 32768"), "{text}");
    assert!(text.contains("help: shorten the text"), "{text}");

    let rows = format!("SEQ\n{}", "  SKIP\n".repeat(512));
    let (status, text) = told("check", &[write("rows.occam", &rows)]);
    assert_eq!(status, Some(1));
    assert!(
        text.starts_with("refused: number 3, after 1024 rows\n"),
        "{text}"
    );
    assert!(text.contains("has 513 lines"), "{text}");

    // The deepest brackets: the search for what is wrong takes no more stack than others.
    let deep = format!("INT x:\nx := {}x\n", "(".repeat(32_000));
    let (status, text) = told("check", &[write("deep.occam", &deep)]);
    assert_eq!(status, Some(1));
    assert!(text.contains("a round bracket is not closed"), "{text}");
    assert!(text.lines().all(|line| line.len() < 200), "{text}");
    let deep = format!(
        "INT x:\nx := {0}x{1}\n",
        "(".repeat(16_000),
        ")".repeat(16_000)
    );
    let (status, text) = told("check", &[write("closed.occam", &deep)]);
    assert_eq!((status, text.as_str()), (Some(0), "accepted\n"));
}

/// The status and standard error of a command on a file; whatever the file holds, it is no panic.
fn ends_well(command: &[&str], file: &str) {
    let output = Command::new(env!("CARGO_BIN_EXE_occam-table"))
        .args(command)
        .arg(file)
        .output()
        .expect("the program starts");
    let error = String::from_utf8_lossy(&output.stderr);
    let status = output.status.code();
    assert!(matches!(status, Some(0 | 1)), "{status:?}: {error}");
    assert!(!error.contains("panicked"), "{error}");
}

#[test]
fn damaged_texts_end_in_no_backtrace() {
    for seed in 0..100 {
        let (input, _) = text_input(seed, seed % 5 != 0);
        let mut text = split_input(&input).0.to_vec();
        let random = &mut Random::new(seed);
        for _ in 0..random.below(4) {
            let byte = random.below(256) as u8;
            text.insert(random.below(text.len() + 1), byte);
        }
        let path = std::env::temp_dir();
        let path = path.join(format!("occam-table-{}-damaged", std::process::id()));
        fs::write(&path, &text).expect("written");
        let file = path.display().to_string();
        ends_well(&["check"], &file);
        ends_well(&["read"], &file);
        ends_well(&["run", "--text", "--table", "--full", &file], &file);
        ends_well(&["steps", "--text", "--budget", "20", &file], &file);
        fs::remove_file(&path).expect("it is there");
    }
}
