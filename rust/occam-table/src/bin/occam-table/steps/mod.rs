//! `steps`: a run step by step, from the states that the library leaves at budgets 0, 1, 2, ...

mod moves;
#[cfg(test)]
mod tests;
mod waiting;
mod words;

use crate::arguments::Arguments;
use crate::input::TEXT;
use crate::program::Program;
use crate::ready::ready_words;
use crate::report::Report;
use crate::run::Asked;
use occam_table::{Machine, Outcome, Refusal, Snapshot};

/// The budget if none is given.
const BUDGET: u32 = 1_000;

/// The command.
pub fn command(words: &[String]) -> Result<Report, String> {
    let arguments = Arguments::part("steps", words, &["--budget", "--choices"], &[TEXT])?;
    let asked = Asked::read(&arguments, BUDGET)?;
    Ok(match story(&asked) {
        Ok(text) => Report::accepted(text),
        Err(refusal) => asked.refused(refusal),
    })
}

/// The words of each step, and of the end.
fn story(asked: &Asked) -> Result<String, Refusal> {
    let mut machine = Machine::new();
    // A budget that is refused is refused before any step.
    asked.run_with(&mut machine, &asked.choices, asked.budget)?;
    let mut state = state_after(asked, &mut machine, 0)?;
    let program = asked.program();
    let mut text = String::new();
    while state.outcome == Outcome::Spent && u64::from(state.steps) < asked.budget {
        let number = state.steps + 1;
        let next = state_after(asked, &mut machine, number)?;
        let moved = moves::between(&program, &state, &next);
        let unset = moves::unset_by_blocks(&program, &state, &next);
        let told = words::of_move(&program, &moved) + &words::of_unset(&program, &unset);
        text += &format!("step {number}: {told}\n");
        state = next;
    }
    text += &end(&program, &state);
    Ok(text)
}

/// The state that the library leaves after this many steps.
fn state_after(asked: &Asked, machine: &mut Machine, steps: u32) -> Result<Snapshot, Refusal> {
    let run = asked.run_with(machine, &asked.choices, u64::from(steps))?;
    Ok(run.snapshot())
}

/// The words about the end of a run: what is waiting, and why.
fn end(program: &Program, state: &Snapshot) -> String {
    let steps = if state.steps == 1 { "step" } else { "steps" };
    let mut text = match state.outcome {
        Outcome::Spent => {
            let ready = ready_words(state.ready);
            format!("spent after {} {steps}: {ready}\n", state.steps)
        }
        outcome => format!("at rest after {} {steps}: {outcome}\n", state.steps),
    };
    if state.outcome != Outcome::Spent {
        for line in waiting::at_rest(program, state) {
            text += &format!("  {line}\n");
        }
    }
    text
}
