//! What the inputs from seeds make runs do: GIVEN, absences that pass to inputs, to options of an ALT
//! and to the host, and blocks, whose start unsets cells that are set, each in sufficient number. And
//! what their verdicts rest on: constant subscripts, and subscripts that count as every number. And
//! where their clash searches end, by the count of pairs.

#[path = "../../reference/tests/common/clashes.rs"]
mod clashes;
#[path = "../../reference/tests/common/ends.rs"]
mod ends;

use clashes::{differs, Rule};
use ends::{end_of_search, EVERY_END};
use fuzz::inputs::versions;
use fuzz::Given;
use reference::check_bytes;
use reference::kinds::{BLOCK, GIVEN, MONADIC};
use reference::sheet::readings_of_bytes;
use reference::state::State;
use reference::steps::{ready_steps, take_step, Step};
use reference::table::Row;
use std::collections::BTreeMap;

const SEEDS: u64 = 2_500;
const MOST_STEPS: usize = 200;

/// Counts inputs by what they have or make a run do.
type Tally = BTreeMap<&'static str, u64>;

/// Whether a row is GIVEN of an element.
fn is_given(row: &Row) -> bool {
    row.kind == MONADIC && row.a == GIVEN
}

/// Where an output's absence goes in a step, if one passes.
fn absence(step: &Step) -> Option<&'static str> {
    let place = match step {
        Step::HostWrite { .. } => "absence to the host",
        Step::Option { .. } => "absence to an option",
        _ => "absence to an input",
    };
    step.passes_absence().then_some(place)
}

/// Whether a block's start unsets a cell that is set; no step without an input unsets one otherwise.
fn unsets(step: &Step, before: &State, after: &State) -> Option<&'static str> {
    let takes = match step {
        Step::Input { .. } => true,
        Step::Option { passing, .. } => passing.is_some(),
        _ => false,
    };
    let mut cells = before.cells.iter().zip(&after.cells);
    let unset = cells.any(|(before, after)| before.is_some() && after.is_none());
    (!takes && unset).then_some("block that unsets")
}

/// What the beginning of an input's run does; nothing if it is refused.
fn deeds(given: &Given) -> Option<Vec<&'static str>> {
    let program = check_bytes(&given.table).ok()?;
    let readings = readings_of_bytes(&given.sheet, &program.layout.readings).ok()?;
    let mut deeds = Vec::new();
    if program.rows.iter().any(is_given) {
        deeds.push("GIVEN");
    }
    if program.rows.iter().any(|row| row.kind == BLOCK) {
        deeds.push("block");
    }
    let mut state = State::start(&program);
    let mut ready = Vec::new();
    let most = MOST_STEPS.min(given.budget as usize);
    let choices = given.choices.iter().copied().chain(std::iter::repeat(0));
    for choice in choices.take(most) {
        ready_steps(&program, &readings, &state, &mut ready);
        let Some(step) = ready.get(usize::from(choice) % ready.len().max(1)) else {
            break;
        };
        deeds.extend(absence(step));
        let before = state.clone();
        take_step(&program, &readings, &mut state, *step);
        deeds.extend(unsets(step, &before, &state));
    }
    deeds.sort_unstable();
    deeds.dedup();
    Some(deeds)
}

/// What the verdict on an input's table rests on: no clash by constants alone, a clash by a constant
/// alone, or one by a subscript that counts as every number of its name.
fn grounds(given: &Given) -> Vec<&'static str> {
    let grounds = [
        ("no clash by constants", Rule::Literal, Rule::Constant),
        (
            "clash by a constant",
            Rule::Constant,
            Rule::WithoutConstants,
        ),
        ("clash by every number", Rule::Constant, Rule::WithoutAll),
    ];
    let differs = |&(_, one, other): &(_, Rule, Rule)| differs(&given.table, one, other);
    let found = grounds.into_iter().filter(differs);
    found.map(|(name, ..)| name).collect()
}

/// Counts what the inputs have or do, and asks for so many of each at least.
fn assert_enough(seen: impl Fn(&Given) -> Vec<&'static str>, least: &[(&str, u64)]) {
    let mut tally = Tally::new();
    for given in (0..SEEDS).flat_map(versions) {
        for name in seen(&given) {
            *tally.entry(name).or_default() += 1;
        }
    }
    println!("{tally:?}");
    for (name, least) in least {
        assert!(tally.get(name) >= Some(least), "{name} in {tally:?}");
    }
}

#[test]
fn absences_pass_and_blocks_begin_again() {
    let least = [
        ("GIVEN", 1_000),
        ("absence to an input", 200),
        ("absence to an option", 50),
        ("absence to the host", 400),
        ("block", 2_000),
        ("block that unsets", 400),
    ];
    assert_enough(|given| deeds(given).unwrap_or_default(), &least);
}

#[test]
fn clash_searches_end_everywhere() {
    let least = EVERY_END.map(|end| (end, 30));
    assert_enough(|given| vec![end_of_search(&given.table)], &least);
}

#[test]
fn verdicts_rest_on_constant_subscripts() {
    let least = [
        ("no clash by constants", 800),
        ("clash by a constant", 450),
        ("clash by every number", 240),
    ];
    assert_enough(grounds, &least);
}
