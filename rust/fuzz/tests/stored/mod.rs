//! The stored cases.
#![allow(dead_code)]

use std::fs;
use std::path::{Path, PathBuf};

/// The files of the cases' inputs.
pub fn cases() -> Vec<PathBuf> {
    let folder = Path::new(env!("CARGO_MANIFEST_DIR")).join("../../cases");
    let files = fs::read_dir(folder).expect("the folder is there");
    let paths = files.map(|file| file.expect("a file").path());
    let cases = paths.filter(|path| path.extension().is_some_and(|word| word == "in"));
    cases.collect()
}

/// The words of a case.
pub fn words(case: &Path) -> Vec<String> {
    let line = fs::read_to_string(case.with_extension("args")).unwrap_or_default();
    line.split_whitespace().map(str::to_string).collect()
}

/// What is stored as the output of a case.
pub fn output(case: &Path) -> String {
    fs::read_to_string(case.with_extension("out")).expect("stored")
}
