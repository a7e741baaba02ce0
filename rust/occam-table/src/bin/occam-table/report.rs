//! What a command prints, and its exit status.

use crate::explain::meaning;
use crate::faults::{details, help_about_blocks, Given};
use crate::text;
use occam_table::Refusal;

/// What a command prints on standard output and beside it, and its exit status.
#[derive(Debug, PartialEq, Eq)]
pub struct Report {
    pub text: String,
    pub aside: String,
    pub status: u8,
}

impl Report {
    /// A report of something accepted.
    pub fn accepted(text: String) -> Report {
        Report {
            text,
            aside: String::new(),
            status: 0,
        }
    }

    /// A report of a refusal as the sheet runner's line alone.
    pub fn refused_line(refusal: Refusal) -> Report {
        Report {
            text: format!("{refusal}\n"),
            aside: String::new(),
            status: 1,
        }
    }

    /// A report of a refusal in plain words.
    pub fn refused(refusal: Refusal, names: &str, given: &Given) -> Report {
        Report {
            text: refusal_words(refusal, names, given),
            aside: String::new(),
            status: 1,
        }
    }
}

/// A refusal in plain words: the library's answer, what was looked up in the files, what to do.
pub fn refusal_words(refusal: Refusal, names: &str, given: &Given) -> String {
    let place = place_words(refusal, given);
    let (number, meaning) = (refusal.number, meaning(refusal.number));
    let mut text = format!("refused: number {number}{place}\n{}\n", meaning.summary);
    let found = details(refusal, given);
    if !found.is_empty() {
        text += &format!("\nlooked up in {names} (beside the proved answer):\n");
        for line in found {
            text += &format!("  {line}\n");
        }
    }
    let help = help_words(refusal, given);
    text + &format!("help: {help} (more: `occam-table explain {number}`)\n")
}

/// What to do about a refusal at its place.
fn help_words(refusal: Refusal, given: &Given) -> &'static str {
    match (refusal.number, refusal.place) {
        (2, 0) => "shorten the table to at most 32768 bytes",
        (2, 1) => "begin the table with the line kind,a,b,c and a line feed",
        (2, place) if line_of(&given.code.bytes, place) == Some(b"=") => {
            "leave out the line `=` and the readings after it: a table alone is wanted here"
        }
        (5, place) if place as usize == row_count(given) => {
            "add a root: the first row after the declarations, a process (kind 20 to 35)"
        }
        (10, 0) => "shorten the sheet to at most 16384 bytes",
        (10, 1) if given.sheet.is_empty() => {
            "add the readings (after a line `=` where `-` stands for both): first a line of the \
             channels from the host, joined by commas, empty if there are none"
        }
        (10, 1) => {
            "begin the sheet with the rows of the channels from the host, joined by commas; \
             without such a channel it is one empty line"
        }
        (10, 130) => "leave out what comes after 128 lines of readings",
        (12, place) => text::help_about_the_grammar(&given.code.bytes, place as usize),
        (4, _) if given.code.is_text => "put a number in range into that declaration",
        (3, _) if given.code.is_text => "make the text shorter until it makes at most 1024 rows",
        (14, place) => help_about_blocks(place as usize, given),
        (number, _) => meaning(number).help,
    }
}

/// A line of a file, counted from 1, without its line feed.
fn line_of(bytes: &[u8], number: u32) -> Option<&[u8]> {
    let mut lines = bytes.split(|&byte| byte == b'\n');
    lines.nth(number as usize - 1)
}

/// The place of a refusal with the word for what it counts.
fn place_words(refusal: Refusal, given: &Given) -> String {
    let place = refusal.place;
    match refusal.number {
        2 if place > 0 => format!(", line {place} of the table"),
        10 if place > 0 => format!(", line {place} of the sheet"),
        3 => format!(", after {place} rows"),
        5 if place as usize == row_count(given) => format!(", after {place} rows"),
        12 | 13 if place > 0 => format!(", line {place} of the text"),
        4..=9 | 14 if given.code.is_text => line_and_row(place, given),
        4..=9 | 14 => format!(", row {place}"),
        _ => format!(", place {place}"),
    }
}

/// The line of a text that made a row, and the row.
fn line_and_row(row: u32, given: &Given) -> String {
    let line = given.code.program().place(row as usize);
    format!(", {line} of the text (row {row} of its table)")
}

/// How many rows the table has.
fn row_count(given: &Given) -> usize {
    given.code.program().rows.len()
}
