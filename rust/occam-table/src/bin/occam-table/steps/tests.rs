//! Words about steps, compared with the steps of the separate program.

use super::moves::{between, Move, Taker};
use super::story;
use crate::code::Code;
use crate::program::Program;
use crate::run::Asked;
use occam_table::{read_rows, Machine, Outcome};
use reference::generate::{generate, Aim};
use reference::sheet::readings_of_bytes;
use reference::state::State;
use reference::steps::{ready_steps, take_step};

/// The rows that a step may be ordered by: one, or those that look alike.
fn rows_of(step: &Move) -> Vec<usize> {
    match step {
        Move::Stopped { row, .. }
        | Move::Assigned { row, .. }
        | Move::Wrote { row, .. }
        | Move::Tested { row, .. }
        | Move::Chose { row, .. } => vec![*row],
        Move::Passed { taker, .. } | Move::Read { taker, .. } => match taker {
            Taker::Input(row) => vec![*row],
            Taker::Alt(_, options) => options.clone(),
        },
        Move::Took { options, .. } => options.clone(),
        Move::Unseen { loops } => loops.clone(),
    }
}

/// Compares the rows seen to move with the steps of the separate program; tells how many.
fn compare(seed: u64) -> usize {
    let (table, sheet, choices, _) = generate(seed, true, Some(Aim::Accepted)).parts();
    let mut machine = Machine::new();
    let rows = read_rows(&table).expect("rows");
    let program = Program::new(&rows);
    let other = reference::check_bytes(&table).expect("accepted");
    let readings = readings_of_bytes(&sheet, &other.layout.readings).expect("accepted");
    let (mut state, mut ready) = (State::start(&other), Vec::new());
    for number in 0..40 {
        let mut after = |steps| {
            let run = machine.run_table(&table, &sheet, &choices, steps);
            run.expect("accepted").snapshot()
        };
        let before = after(number);
        if before.outcome != Outcome::Spent {
            return number as usize;
        }
        ready_steps(&other, &readings, &state, &mut ready);
        let choice = choices.get(number as usize).copied().unwrap_or(0);
        let picked = ready[usize::from(choice) % ready.len()];
        let step = between(&program, &before, &after(number + 1));
        let rows = rows_of(&step);
        assert!(rows.contains(&picked.row()), "{seed}: {picked:?}, {step:?}");
        take_step(&other, &readings, &mut state, picked);
    }
    40
}

#[test]
fn the_row_that_moved() {
    let steps: usize = (0..400).map(compare).sum();
    assert!(steps > 2_000, "{steps}");
}

/// The words about a generated input, with its outcome and steps.
fn told(seed: u64) -> (Outcome, u32, String) {
    let (table, sheet, choices, _) = generate(seed, true, Some(Aim::Accepted)).parts();
    let asked = Asked {
        code: Code::new(table, false),
        sheet,
        names: String::new(),
        choices,
        budget: 60,
    };
    let mut machine = Machine::new();
    let run = asked.run_with(&mut machine, &asked.choices, asked.budget);
    let run = run.expect("accepted");
    (run.outcome, run.steps, story(&asked).expect("accepted"))
}

#[test]
fn a_line_for_each_step_and_a_reason_at_rest() {
    for seed in 0..400 {
        let (outcome, steps, text) = told(seed);
        let lines = |start: &str| text.lines().filter(|line| line.starts_with(start)).count();
        assert_eq!(lines("step "), steps as usize, "{seed}: {text}");
        let stopped = text.lines().any(|line| line.contains("is stopped"));
        match outcome {
            Outcome::Ended | Outcome::Spent => assert_eq!(lines("  row "), 0, "{seed}: {text}"),
            Outcome::Stuck => assert!(lines("  row ") > 0 && !stopped, "{seed}: {text}"),
            Outcome::Broken => assert!(stopped, "{seed}: {text}"),
        }
    }
}
