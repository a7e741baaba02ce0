//! What is asked of two orders and their common state (request 14).

use reference::check_bytes;
use reference::join::{join, one_begins_the_other, Joined, Order};
use reference::program::Program;
use reference::sheet::{readings_of_bytes, Readings};
use reference::state::State;
use reference::steps::StepName;

/// A table's program and its readings; none if they are refused.
pub fn accepted(table: &[u8], sheet: &[u8]) -> Option<(Program, Readings)> {
    let program = check_bytes(table).ok()?;
    let readings = readings_of_bytes(sheet, &program.layout.readings).ok()?;
    Some((program, readings))
}

/// How often a step is taken in an order.
fn times(step: StepName, steps: &[StepName]) -> usize {
    steps.iter().filter(|&&taken| taken == step).count()
}

/// Whether a way on has each step as often as the other order is ahead in it.
fn owes(way: &[StepName], other: &[StepName], own: &[StepName]) -> bool {
    let mut steps = other.iter().chain(way);
    steps.all(|&step| times(step, way) == times(step, other).saturating_sub(times(step, own)))
}

/// Whether channel by channel one state's list is a beginning of the other's.
pub fn lists_begin(one: &State, other: &State) -> bool {
    let mut lists = one.lists.iter().zip(&other.lists);
    lists.all(|(one, other)| one_begins_the_other(one, other))
}

/// Whether each list of the one is a beginning of the other's.
fn each_begins(one: &State, other: &State) -> bool {
    let mut lists = one.lists.iter().zip(&other.lists);
    lists.all(|(one, other)| other.starts_with(one))
}

/// Joins two orders and asks for all that is claimed: the bounds, equal lengths together, the steps
/// that each goes on by, and the lists.
pub fn joined(program: &Program, readings: &Readings, first: &Order, second: &Order) -> Joined {
    let joined = join(program, readings, first, second).expect("joined");
    let (onward, toward) = (&joined.onward, &joined.toward);
    assert!(onward.len() <= second.steps.len());
    assert!(toward.len() <= first.steps.len());
    let lengths = [
        first.steps.len() + onward.len(),
        second.steps.len() + toward.len(),
    ];
    assert_eq!(lengths[0], lengths[1]);
    assert!(owes(onward, &second.steps, &first.steps));
    assert!(owes(toward, &first.steps, &second.steps));
    assert!(lists_begin(&first.end, &second.end));
    assert!(each_begins(&first.end, &joined.state));
    assert!(each_begins(&second.end, &joined.state));
    joined
}
