//! The sheet runner's input and printing: "A run on paper".

use crate::answer::{Answer, Checked, Ran, Traced};
use crate::limits::Part;
use crate::refusal::Refusal;
use crate::state::STOPPED;
use crate::table::{table_text, Row};
use std::fmt::{self, Write};

/// The line of names above a result.
const NAMES_LINE: &str = "what,name,at,value";

/// The table up to the first line `=`, and the readings after it; without that line no readings.
pub fn split_input(input: &[u8]) -> (&[u8], &[u8]) {
    let mut start = 0;
    for line in input.split_inclusive(|&byte| byte == b'\n') {
        if line == b"=\n" {
            return (&input[..start], &input[start + line.len()..]);
        }
        start += line.len();
    }
    (input, &[])
}

/// The sheet runner's lines for an answer; with `full`, also all that the buffers hold.
pub fn printed(answer: &Answer, full: bool) -> String {
    let mut text = String::new();
    let written = match answer {
        Answer::Refused(refusal) => writeln!(text, "{refusal}"),
        Answer::Ran(ran) => print_result(&mut text, ran, full),
    };
    debug_assert!(written.is_ok());
    text
}

/// One line: how many steps are ready after the run, or a refusal.
pub fn printed_ready(answer: &Answer) -> String {
    match answer {
        Answer::Refused(refusal) => format!("{refusal}\n"),
        Answer::Ran(ran) => format!("ready,{}\n", ran.ready),
    }
}

/// One line: accepted, or a refusal.
pub fn printed_verdict(checked: &Checked) -> String {
    match &checked.verdict {
        Ok(_) => "accepted,0,0,0\n".to_string(),
        Err(refusal) => format!("{refusal}\n"),
    }
}

/// The table of the rows that a text is read to, or a refusal.
pub fn printed_rows(read: &Result<Vec<Row>, Refusal>) -> String {
    match read {
        Ok(rows) => table_text(rows),
        Err(refusal) => format!("{refusal}\n"),
    }
}

/// One line: accepted, or a refusal's number and place; then the count of pairs compared.
pub fn printed_pairs(checked: &Checked) -> String {
    let pairs = checked.pairs;
    match &checked.verdict {
        Ok(_) => format!("accepted,{pairs}\n"),
        Err(Refusal { number, place }) => format!("refused,{number},{place},{pairs}\n"),
    }
}

/// Each step (its number from 1, how many were ready, the row taken), then the line of the end.
pub fn printed_trace(traced: &Traced) -> String {
    let mut text = String::new();
    for (number, taken) in (1..).zip(&traced.steps) {
        let written = writeln!(text, "step,{number},{},{}", taken.ready, taken.row);
        debug_assert!(written.is_ok());
    }
    text + &printed_ready(&traced.answer)
}

/// Prints a result: names, outcome and steps, cells, host outputs, stopped rows.
fn print_result(text: &mut String, ran: &Ran, full: bool) -> fmt::Result {
    writeln!(text, "{NAMES_LINE}")?;
    writeln!(text, "{},0,0,{}", ran.outcome.word(), ran.steps)?;
    print_cells(text, ran)?;
    print_outputs(text, ran)?;
    print_stops(text, ran)?;
    if full {
        print_buffers(text, ran)?;
    }
    Ok(())
}

/// Prints each cell: variable, cell number, value or empty.
fn print_cells(text: &mut String, ran: &Ran) -> fmt::Result {
    for (row, number, cell) in positions(&ran.layout.variables) {
        let value = value_or_empty(ran.cells[cell], ran.marks[cell]);
        writeln!(text, "var,{row},{number},{value}")?;
    }
    Ok(())
}

/// Prints each host output: channel, position, value or empty.
fn print_outputs(text: &mut String, ran: &Ran) -> fmt::Result {
    for (strip, &count) in ran.layout.strips.iter().zip(&ran.counts) {
        for position in 0..count as usize {
            let at = strip.first + position;
            let value = value_or_empty(ran.numbers[at], ran.output_marks[at]);
            writeln!(text, "out,{},{position},{value}", strip.row)?;
        }
    }
    Ok(())
}

/// A value as it is printed, or nothing if its mark is 0.
fn value_or_empty(value: i32, mark: u8) -> String {
    match mark {
        0 => String::new(),
        _ => value.to_string(),
    }
}

/// Prints each stopped row with its reason.
fn print_stops(text: &mut String, ran: &Ran) -> fmt::Result {
    for (row, &state) in ran.states.iter().enumerate() {
        if state > STOPPED {
            writeln!(text, "stop,{row},0,{}", state - STOPPED)?;
        }
    }
    Ok(())
}

/// Prints all that the buffers hold: cells, marks, row states, places, strips, their marks, counts.
fn print_buffers(text: &mut String, ran: &Ran) -> fmt::Result {
    for (row, number, cell) in positions(&ran.layout.variables) {
        writeln!(text, "cell,{row},{number},{}", ran.cells[cell])?;
    }
    for (row, number, cell) in positions(&ran.layout.variables) {
        writeln!(text, "mark,{row},{number},{}", ran.marks[cell])?;
    }
    for (row, state) in ran.states[..ran.row_count].iter().enumerate() {
        writeln!(text, "state,{row},0,{state}")?;
    }
    for (row, place) in ran.layout.readings.iter().zip(&ran.places) {
        writeln!(text, "place,{row},0,{place}")?;
    }
    for (row, number, at) in positions(&ran.layout.strips) {
        writeln!(text, "strip,{row},{number},{}", ran.numbers[at])?;
    }
    for (row, number, at) in positions(&ran.layout.strips) {
        writeln!(text, "omark,{row},{number},{}", ran.output_marks[at])?;
    }
    for (strip, count) in ran.layout.strips.iter().zip(&ran.counts) {
        writeln!(text, "count,{},0,{count}", strip.row)?;
    }
    Ok(())
}

/// Each position of these parts: the declaration's row, its number of that name, and where it lies.
fn positions(parts: &[Part]) -> impl Iterator<Item = (usize, usize, usize)> + '_ {
    let of_one = |part: &Part| {
        let part = *part;
        (0..part.length).map(move |number| (part.row, number, part.first + number))
    };
    parts.iter().flat_map(of_one)
}
