//! The command line over the proved library: check, read, run, ready, steps, orders, explain.
//!
//! Answers come from the library only; the words around them are presentation.

mod aligned;
mod arguments;
mod beginnings;
mod check;
mod code;
mod explain;
mod faults;
mod help;
mod input;
mod kinds;
mod orders;
mod origin;
mod pairs;
mod program;
mod random;
mod read;
mod ready;
mod report;
mod results;
mod run;
mod sheet_lines;
mod steps;
mod text;
mod values;

use report::Report;
use std::io::Write;
use std::process::ExitCode;

fn main() -> ExitCode {
    let words: Vec<String> = std::env::args().skip(1).collect();
    match respond(&words) {
        Ok(report) => show(&report),
        Err(message) => {
            eprintln!("occam-table: {message}");
            ExitCode::from(2)
        }
    }
}

/// The report on a command line; an error is about its use or a file.
fn respond(words: &[String]) -> Result<Report, String> {
    let Some((command, rest)) = words.split_first() else {
        return Err(format!("a command is needed\n\n{}", help::OVERVIEW));
    };
    if let Some(text) = help::wanted(command, rest) {
        return Ok(Report::accepted(text.to_string()));
    }
    match command.as_str() {
        "explain" => explain::command(rest),
        "check" | "read" | "run" | "ready" | "steps" | "orders" if !occam_table::is_linked() => {
            Err(occam_table::MISSING.to_string())
        }
        "check" => check::command(rest),
        "read" => read::command(rest),
        "run" => run::command(rest),
        "ready" => ready::command(rest),
        "steps" => steps::command(rest),
        "orders" => orders::command(rest),
        _ => Err(format!(
            "there is no command {command:?}\n\n{}",
            help::OVERVIEW
        )),
    }
}

/// Prints a report; its status is 0, or 1 if it tells a refusal.
fn show(report: &Report) -> ExitCode {
    eprint!("{}", report.aside);
    match std::io::stdout().write_all(report.text.as_bytes()) {
        Ok(()) => ExitCode::from(report.status),
        Err(_) => ExitCode::from(2),
    }
}
