//! A run as aligned columns, to be read by people. An unset cell and an absence are shown empty.

use crate::kinds::kind_name;
use crate::program::Program;
use crate::ready::ready_words;
use crate::sheet_lines::value_or_empty;
use occam_table::{Outcome, RowState, Run};

/// Columns: each is as wide as its widest entry; numbers stand to the right, words to the left.
struct Columns {
    lines: Vec<Vec<String>>,
}

impl Columns {
    /// Columns under these headings.
    fn new(headings: &[&str]) -> Columns {
        let headings = headings.iter().map(|heading| heading.to_string());
        Columns {
            lines: vec![headings.collect()],
        }
    }

    /// Adds a line.
    fn add(&mut self, entries: &[String]) {
        self.lines.push(entries.to_vec());
    }

    /// The text, none if there is no line under the headings; spaces at a line's end are left out.
    fn text(&self) -> String {
        if self.lines.len() == 1 {
            return String::new();
        }
        let mut text = String::from("\n");
        for line in &self.lines {
            let entries = line.iter().enumerate();
            let padded = entries.map(|(at, entry)| self.padded(at, entry));
            let joined = padded.collect::<Vec<_>>().join("  ");
            text += joined.trim_end();
            text.push('\n');
        }
        text
    }

    /// An entry as wide as its column.
    fn padded(&self, column: usize, entry: &str) -> String {
        let entries = || self.lines.iter().map(|line| line[column].as_str());
        let width = entries().map(|entry| entry.chars().count()).max();
        let width = width.unwrap_or(0);
        let words = entries()
            .skip(1)
            .any(|entry| entry.contains(char::is_alphabetic));
        match words {
            true => format!("{entry:<width$}"),
            false => format!("{entry:>width$}"),
        }
    }
}

/// The page of a run; with `full` also row states and places in the readings.
pub fn page(program: &Program, run: &Run, full: bool) -> String {
    let steps = if run.steps == 1 { "step" } else { "steps" };
    let mut text = format!("{} after {} {steps}", run.outcome, run.steps);
    if run.outcome == Outcome::Spent {
        text += &format!("; {}", ready_words(run.ready));
    }
    text.push('\n');
    text += &cells(program, run);
    text += &outputs(program, run);
    text += &stops(program, run);
    if full {
        text += &states(program, run);
        text += &places(program, run);
    }
    text
}

/// Each cell, unset ones empty.
fn cells(program: &Program, run: &Run) -> String {
    let mut columns = Columns::new(&["variable", "cell", "value"]);
    for variable in program.variables() {
        for (number, cell) in program.part(variable).enumerate() {
            let value = value_or_empty(run.cell(cell));
            columns.add(&[program.name(variable), number.to_string(), value]);
        }
    }
    columns.text()
}

/// Each host output, absences empty.
fn outputs(program: &Program, run: &Run) -> String {
    let mut columns = Columns::new(&["channel", "position", "value"]);
    for (channel, list) in program.output_channels().zip(run.lists()) {
        for (position, message) in list.into_iter().enumerate() {
            let value = value_or_empty(message);
            columns.add(&[program.name(channel), position.to_string(), value]);
        }
    }
    columns.text()
}

/// Each stopped row with its reason in words.
fn stops(program: &Program, run: &Run) -> String {
    let mut text = String::new();
    for (row, state) in run.states().enumerate() {
        if let RowState::Stopped(reason) = state {
            let who = program.place_and_kind(row);
            text += &format!("{who} is stopped, reason {}: {reason}\n", reason.number());
        }
    }
    match text.is_empty() {
        true => text,
        false => format!("\n{text}"),
    }
}

/// Each row that is not idle.
fn states(program: &Program, run: &Run) -> String {
    let headings = match program.origin {
        Some(_) => ["line", "text", "state"],
        None => ["row", "kind", "state"],
    };
    let mut columns = Columns::new(&headings);
    for (row, state) in run.states().enumerate() {
        let word = match state {
            RowState::Idle => continue,
            RowState::Running => "running",
            RowState::Ended => "ended",
            RowState::Stopped(_) => "stopped",
        };
        let (place, what) = match &program.origin {
            Some(origin) => (origin.line(row), origin.source(row)),
            None => (row, kind_name(program.rows[row].kind).to_string()),
        };
        columns.add(&[place.to_string(), what, word.to_string()]);
    }
    columns.text()
}

/// Each place in the readings.
fn places(program: &Program, run: &Run) -> String {
    let mut columns = Columns::new(&["channel", "readings taken"]);
    for (channel, place) in program.reading_channels().zip(run.places()) {
        columns.add(&[program.name(channel), place.to_string()]);
    }
    columns.text()
}
