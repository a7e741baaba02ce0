//! The example sheets, as tables and as texts: stored output, the proved library and the separate
//! program agree.

use std::fs;
use std::path::{Path, PathBuf};
use std::process::Command;

/// The folder of the examples.
fn folder() -> PathBuf {
    Path::new(env!("CARGO_MANIFEST_DIR")).join("../../examples")
}

/// The names of the examples.
fn names() -> Vec<String> {
    let files = fs::read_dir(folder()).expect("the folder is there");
    let names = files.filter_map(|file| {
        let name = file.ok()?.file_name().into_string().ok()?;
        Some(name.strip_suffix(".readings.csv")?.to_string())
    });
    names.collect()
}

/// What the command line prints for an example, its table or its text.
fn command(name: &str, ending: &str) -> String {
    let output = Command::new(env!("CARGO_BIN_EXE_occam-table"))
        .args(["run", "--plain"])
        .arg(folder().join(format!("{name}.{ending}")))
        .arg(folder().join(format!("{name}.readings.csv")))
        .output()
        .expect("the program starts");
    assert!(output.status.success(), "{name}");
    String::from_utf8(output.stdout).expect("text")
}

/// What the separate program prints for an example.
fn separate(name: &str) -> String {
    let read = |file: String| fs::read(folder().join(file)).expect("it is there");
    let table = read(format!("{name}.csv"));
    let sheet = read(format!("{name}.readings.csv"));
    let lengths = reference::BUFFER_LENGTHS;
    let answer = reference::answer_bytes(&table, &sheet, &[], 65_536, lengths);
    reference::printing::printed(&answer, false)
}

#[test]
fn examples_print_what_is_stored() {
    let names = names();
    assert!(names.len() >= 6, "{names:?}");
    for name in names {
        let stored = fs::read_to_string(folder().join(format!("{name}.out"))).expect("stored");
        assert_eq!(separate(&name), stored, "{name}, separate program");
        assert_eq!(command(&name, "csv"), stored, "{name}, proved library");
        assert_eq!(command(&name, "occam"), stored, "{name}, its text");
    }
}

#[test]
fn every_table_has_readings_and_output() {
    let mut tables = 0;
    for file in fs::read_dir(folder()).expect("the folder is there") {
        let name = file
            .expect("a file")
            .file_name()
            .into_string()
            .expect("a name");
        let Some(name) = name
            .strip_suffix(".csv")
            .filter(|name| !name.ends_with(".readings"))
        else {
            continue;
        };
        tables += 1;
        for beside in ["readings.csv", "out", "occam"] {
            assert!(
                folder().join(format!("{name}.{beside}")).is_file(),
                "{name}"
            );
        }
    }
    assert_eq!(tables, names().len());
}

/// The rows of an example's table, in top-down numbers.
fn rows_of_table(name: &str) -> Vec<reference::table::Row> {
    let table = fs::read(folder().join(format!("{name}.csv"))).expect("it is there");
    let rows = reference::table::rows_of_bytes(&table).expect("rows");
    reference::generate::occam::top_down(&rows)
}

#[test]
fn every_text_is_read_to_its_table() {
    for name in names() {
        let text = fs::read(folder().join(format!("{name}.occam"))).expect("it is there");
        let read = occam_table::read_text(&text).expect("read");
        let table = rows_of_table(&name);
        let rows = table.iter().map(|row| [row.kind, row.a, row.b, row.c]);
        assert_eq!(read, rows.collect::<Vec<_>>(), "{name}");
    }
}
