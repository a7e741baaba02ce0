//! The sheet runner's lines for a run: document 01, "A run on paper". Of a text they have its names
//! and lines in place of rows.

use crate::kinds::PROCESS;
use crate::program::Program;
use occam_table::{RowState, Run};
use std::fmt::Write;

/// The lines of a run; with `full` also row states and places in the readings.
pub fn page(program: &Program, run: &Run, full: bool) -> String {
    let mut text = format!("what,name,at,value\n{},0,0,{}\n", run.outcome, run.steps);
    let written = cells(&mut text, program, run)
        .and_then(|()| outputs(&mut text, program, run))
        .and_then(|()| stops(&mut text, program, run))
        .and_then(|()| match full {
            true => states_and_places(&mut text, program, run),
            false => Ok(()),
        });
    debug_assert!(written.is_ok());
    text
}

/// Each cell: variable, cell number, value or empty.
fn cells(text: &mut String, program: &Program, run: &Run) -> std::fmt::Result {
    for variable in program.variables() {
        let name = program.name(variable);
        for (number, cell) in program.part(variable).enumerate() {
            let value = value_or_empty(run.cell(cell));
            writeln!(text, "var,{name},{number},{value}")?;
        }
    }
    Ok(())
}

/// Each host output: channel, position, value or empty.
fn outputs(text: &mut String, program: &Program, run: &Run) -> std::fmt::Result {
    for (channel, list) in program.output_channels().zip(run.lists()) {
        let name = program.name(channel);
        for (position, message) in list.into_iter().enumerate() {
            let value = value_or_empty(message);
            writeln!(text, "out,{name},{position},{value}")?;
        }
    }
    Ok(())
}

/// A value, or nothing for an unset cell or an absence.
pub fn value_or_empty(value: Option<i32>) -> String {
    value.map_or(String::new(), |z| z.to_string())
}

/// Each stopped row with its reason.
fn stops(text: &mut String, program: &Program, run: &Run) -> std::fmt::Result {
    for (row, state) in run.states().enumerate() {
        if let RowState::Stopped(reason) = state {
            writeln!(
                text,
                "stop,{},0,{}",
                row_name(program, row),
                reason.number()
            )?;
        }
    }
    Ok(())
}

/// The name of a row: its number, or of a text its line.
fn row_name(program: &Program, row: usize) -> String {
    match program.origin {
        Some(_) => program.place(row),
        None => row.to_string(),
    }
}

/// Whether the state of a row is told: of a text only that of a process's line, which others of the
/// same line have no part in.
fn is_told(program: &Program, row: usize) -> bool {
    let kind = program.rows[row].kind;
    program.origin.is_none() || (PROCESS.contains(&kind) && !program.is_guarded(row))
}

/// Each row's state, and each place in the readings.
fn states_and_places(text: &mut String, program: &Program, run: &Run) -> std::fmt::Result {
    let states = run.states().enumerate();
    for (row, state) in states.filter(|&(row, _)| is_told(program, row)) {
        let name = row_name(program, row);
        writeln!(text, "state,{name},0,{}", state.number())?;
    }
    for (channel, place) in program.reading_channels().zip(run.places()) {
        writeln!(text, "place,{},0,{place}", program.name(channel))?;
    }
    Ok(())
}
