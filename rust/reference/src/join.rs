//! Two orders of steps and their common state: each goes on by the steps that only the other has taken.

use crate::generate::random::Random;
use crate::program::Program;
use crate::sheet::Readings;
use crate::state::State;
use crate::steps::{ready_steps, take_step, Step, StepName};
use std::collections::HashMap;

/// An order of steps from the start, and the state that it comes to.
#[derive(Clone, Debug)]
pub struct Order {
    pub steps: Vec<StepName>,
    pub end: State,
}

/// The common state of two orders, and how each goes on to it.
#[derive(Clone, Debug)]
pub struct Joined {
    /// From the end of the first: the steps that only the second has taken.
    pub onward: Vec<StepName>,
    /// From the end of the second: the steps that only the first has taken.
    pub toward: Vec<StepName>,
    pub state: State,
}

/// A step of a list that is not ready when its turn comes; the number counts from 0.
#[derive(Clone, Copy, Debug, PartialEq, Eq)]
pub struct NotReady {
    pub number: usize,
    pub step: StepName,
}

/// Why two orders are not joined.
#[derive(Clone, Copy, Debug, PartialEq, Eq)]
pub enum Failure {
    /// A step that only the second has taken is not ready where the first should go on by it.
    First(NotReady),
    /// A step that only the first has taken is not ready where the second should go on by it.
    Second(NotReady),
    /// Both go on, to different states.
    Apart,
}

impl Order {
    /// The order of these steps, or the first that is not ready.
    pub fn of(
        program: &Program,
        readings: &Readings,
        steps: &[StepName],
    ) -> Result<Order, NotReady> {
        Ok(Order {
            end: follow(program, readings, State::start(program), steps)?,
            steps: steps.to_vec(),
        })
    }

    /// The order of a seed: of this length, or shorter if it comes to rest before. It takes any of
    /// the ready steps, or mostly the first, or mostly the last.
    pub fn random(program: &Program, readings: &Readings, length: usize, seed: u64) -> Order {
        let mut random = Random::new(seed);
        let habit = random.below(3);
        let mut end = State::start(program);
        let mut steps = Vec::new();
        let mut ready = Vec::new();
        while steps.len() < length {
            ready_steps(program, readings, &end, &mut ready);
            let Some(step) = picked(&mut random, habit, &ready) else {
                break;
            };
            take_step(program, readings, &mut end, step);
            steps.push(step.name());
        }
        Order { steps, end }
    }
}

/// One of the ready steps, if there are any: by habit 1 mostly the first, by habit 2 mostly the last.
fn picked(random: &mut Random, habit: usize, ready: &[Step]) -> Option<Step> {
    let number = match habit {
        1 if random.chance(80) => 0,
        2 if random.chance(80) => ready.len().saturating_sub(1),
        _ => random.below(ready.len()),
    };
    ready.get(number).copied()
}

/// The state to which these steps lead, or the first of them that is not ready.
pub fn follow(
    program: &Program,
    readings: &Readings,
    mut state: State,
    steps: &[StepName],
) -> Result<State, NotReady> {
    let mut ready = Vec::new();
    for (number, &step) in steps.iter().enumerate() {
        ready_steps(program, readings, &state, &mut ready);
        let Some(found) = ready.iter().find(|found| found.name() == step) else {
            return Err(NotReady { number, step });
        };
        take_step(program, readings, &mut state, *found);
    }
    Ok(state)
}

/// How often each step is taken.
fn times(steps: &[StepName]) -> HashMap<StepName, usize> {
    let mut times = HashMap::new();
    for &step in steps {
        *times.entry(step).or_insert(0) += 1;
    }
    times
}

/// The steps that are taken here more often than there, each so often, in this order.
pub fn only_here(here: &[StepName], there: &[StepName]) -> Vec<StepName> {
    let mut left = times(there);
    let is_more = |step: &&StepName| match left.get_mut(step) {
        Some(times) if *times > 0 => {
            *times -= 1;
            false
        }
        _ => true,
    };
    here.iter().filter(is_more).copied().collect()
}

/// The common state of two orders: each goes on by the steps that only the other has taken.
pub fn join(
    program: &Program,
    readings: &Readings,
    first: &Order,
    second: &Order,
) -> Result<Joined, Failure> {
    let onward = only_here(&second.steps, &first.steps);
    let toward = only_here(&first.steps, &second.steps);
    let end_of =
        |order: &Order, steps: &[StepName]| follow(program, readings, order.end.clone(), steps);
    let state = end_of(first, &onward).map_err(Failure::First)?;
    let other = end_of(second, &toward).map_err(Failure::Second)?;
    match state == other {
        true => Ok(Joined {
            onward,
            toward,
            state,
        }),
        false => Err(Failure::Apart),
    }
}

/// Whether one of two lists is a beginning of the other.
pub fn one_begins_the_other<T: PartialEq>(one: &[T], other: &[T]) -> bool {
    one.starts_with(other) || other.starts_with(one)
}
