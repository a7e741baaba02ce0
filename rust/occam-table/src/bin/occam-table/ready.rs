//! `ready`: how many steps are ready after a run.

use crate::arguments::Arguments;
use crate::input::TEXT;
use crate::report::Report;
use crate::run::Asked;
use occam_table::{Machine, Outcome, Run, BUDGET};

/// The command.
pub fn command(words: &[String]) -> Result<Report, String> {
    let valued = ["--budget", "--choices"];
    let arguments = Arguments::part("ready", words, &valued, &["--plain", TEXT])?;
    let asked = Asked::read(&arguments, BUDGET)?;
    let mut machine = Machine::new();
    let ran = asked.run_with(&mut machine, &asked.choices, asked.budget);
    Ok(match (ran, arguments.has("--plain")) {
        (Ok(run), true) => Report::accepted(format!("ready,{}\n", run.ready)),
        (Ok(run), false) => Report::accepted(sentence(&run)),
        (Err(refusal), true) => Report::refused_line(refusal),
        (Err(refusal), false) => asked.refused(refusal),
    })
}

/// The total in words, and when it is told.
fn sentence(run: &Run) -> String {
    let steps = if run.steps == 1 { "step" } else { "steps" };
    let after = format!("after {} {steps}", run.steps);
    match run.outcome {
        Outcome::Spent => format!("{} {after}\n", ready_words(run.ready)),
        outcome => format!("no step is ready: at rest {after}, {outcome}\n"),
    }
}

/// A total above 0 in words.
pub fn ready_words(ready: u32) -> String {
    match ready {
        1 => "1 step is ready".to_string(),
        _ => format!("{ready} steps are ready"),
    }
}
