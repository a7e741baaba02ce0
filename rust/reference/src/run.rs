//! A run: the order that its choices pick, up to rest or its budget.

use crate::program::Program;
use crate::sheet::Readings;
use crate::state::{State, ENDED};
use crate::steps::{ready_steps, take_step};

/// How a run ended.
#[derive(Clone, Copy, Debug, PartialEq, Eq, Hash)]
pub enum Outcome {
    /// At rest, and the root has ended.
    Ended,
    /// At rest, and neither ended nor broken.
    Stuck,
    /// At rest, and a row is stopped.
    Broken,
    /// The steps equal the budget and one is ready.
    Spent,
}

impl Outcome {
    /// The paper's word for the outcome.
    pub fn word(self) -> &'static str {
        match self {
            Outcome::Ended => "ended",
            Outcome::Stuck => "stuck",
            Outcome::Broken => "broken",
            Outcome::Spent => "spent",
        }
    }
}

/// The end of a run: how it came, after how many steps, how many are ready then, and the state.
pub struct End {
    pub outcome: Outcome,
    pub steps: u64,
    /// How many steps are ready in the state that is left: 0 at rest, above 0 when spent.
    pub ready: usize,
    pub state: State,
}

/// What the panel shows of one step.
#[derive(Clone, Copy, Debug, PartialEq, Eq)]
pub struct Taken {
    /// How many steps were ready, this one included.
    pub ready: usize,
    /// The row that orders this one.
    pub row: usize,
}

/// Runs a program and tells each step as it is taken.
pub fn run(
    program: &Program,
    readings: &Readings,
    choices: &[u16],
    budget: u64,
    mut tell: impl FnMut(Taken),
) -> End {
    let mut state = State::start(program);
    let mut ready = Vec::new();
    let mut remaining_choices = choices.iter();
    let mut steps = 0;
    loop {
        ready_steps(program, readings, &state, &mut ready);
        let at_rest = ready.is_empty();
        if at_rest || steps == budget {
            return End {
                outcome: match at_rest {
                    true => outcome_at_rest(program, &state),
                    false => Outcome::Spent,
                },
                steps,
                ready: ready.len(),
                state,
            };
        }
        let choice = remaining_choices.next().copied().unwrap_or(0);
        let picked = ready[usize::from(choice) % ready.len()];
        tell(Taken {
            ready: ready.len(),
            row: picked.row(),
        });
        take_step(program, readings, &mut state, picked);
        steps += 1;
    }
}

/// The outcome at rest: ended if the root has ended, broken if a row is stopped, else stuck.
pub fn outcome_at_rest(program: &Program, state: &State) -> Outcome {
    if state.rows[program.root] == ENDED {
        Outcome::Ended
    } else if state.has_stopped_row() {
        Outcome::Broken
    } else {
        Outcome::Stuck
    }
}
