//! `check`: the verdict on a table or a text, and with `--pairs` the count of pairs compared.

use crate::arguments::Arguments;
use crate::code::Code;
use crate::faults::Given;
use crate::input::{self, TEXT};
use crate::pairs;
use crate::report::Report;
use occam_table::Verdict;
use std::time::Instant;

/// The line of an accepted table or text.
const ACCEPTED_LINE: &str = "accepted,0,0,0\n";

/// The command.
pub fn command(words: &[String]) -> Result<Report, String> {
    let arguments = Arguments::part("check", words, &[], &["--pairs", "--plain", TEXT])?;
    let source = input::read(arguments.only("TABLE, or - for standard input")?)?;
    let code = Code::new(source.bytes, arguments.has(TEXT));
    let plain = arguments.has("--plain");
    Ok(match arguments.has("--pairs") {
        true => counted(&code, &source.name, plain),
        false => report(code.verdict(), &code, &source.name, plain),
    })
}

/// The report of a verdict: a line alone, or in words.
fn report(verdict: Verdict, code: &Code, name: &str, plain: bool) -> Report {
    match (verdict, plain) {
        (Ok(()), true) => Report::accepted(ACCEPTED_LINE.to_string()),
        (Ok(()), false) => Report::accepted("accepted\n".to_string()),
        (Err(refusal), true) => Report::refused_line(refusal),
        (Err(refusal), false) => {
            let given = Given {
                code,
                sheet: &[],
                budget: 0,
            };
            Report::refused(refusal, name, &given)
        }
    }
}

/// The report of a verdict with the count of pairs compared: a line alone, or in words.
fn counted(code: &Code, name: &str, plain: bool) -> Report {
    let start = Instant::now();
    let checked = code.counted();
    let time = start.elapsed();
    let report = report(checked.verdict, code, name, plain);
    let text = match plain {
        true => format!("{checked}\n"),
        false => report.text + &pairs::words(&checked, &code.program(), time),
    };
    Report { text, ..report }
}
