//! Random orders of generated tables without ALT, two and two: each pair comes to a common state
//! (request 14). Most of the tables never rest.

mod common;
use common::joins::{accepted, joined};
use common::{assert_enough, stored_inputs, Tally};
use reference::generate::random::Random;
use reference::generate::{generate, Aim};
use reference::join::{Joined, Order};
use reference::kinds::BLOCK;
use reference::printing::split_input;
use reference::program::Program;
use reference::run::{run, Outcome};
use reference::sheet::Readings;
use reference::state::State;

/// A table that goes on after so many steps of its desk order counts as one that never rests.
const LONG: u64 = 300;
/// How many pairs of orders of each generated table are joined.
const PAIRS: usize = 8;

/// The program of a seed and its readings, if nothing refuses them.
fn program(seed: u64, small: bool, aim: Aim) -> Option<(Program, Readings)> {
    let (table, sheet, _, _) = generate(seed, small, Some(aim)).parts();
    let found = accepted(&table, &sheet)?;
    assert!(!found.0.has_alt(), "seed {seed}");
    Some(found)
}

/// Whether the desk order goes on for long.
fn goes_on((program, readings): &(Program, Readings)) -> bool {
    run(program, readings, &[], LONG, |_| {}).outcome == Outcome::Spent
}

/// Two lengths: any up to `most`, at times none, at times equal, at times one much longer.
fn lengths(random: &mut Random, most: usize) -> [usize; 2] {
    let [one, other] = [0; 2].map(|_| random.below(most + 1));
    match random.below(10) {
        0 => [0, other],
        1 => [one, one],
        2 => [5 * one, other],
        _ => [one, other],
    }
}

/// How many lists of the one are longer than the other's.
fn ahead(one: &State, other: &State) -> usize {
    let lists = one.lists.iter().zip(&other.lists);
    lists.filter(|(one, other)| one.len() > other.len()).count()
}

/// What is to be said of a pair of orders and their common state.
fn sorts(program: &Program, first: &Order, second: &Order, joined: &Joined) -> Vec<&'static str> {
    let [onward, toward] = [joined.onward.len(), joined.toward.len()];
    let [length, other] = [first.steps.len(), second.steps.len()];
    let aheads = [
        ahead(&first.end, &second.end),
        ahead(&second.end, &first.end),
    ];
    let mut ways = joined.onward.iter().chain(&joined.toward);
    let block = program.rows.iter().any(|row| row.kind == BLOCK);
    let all = [
        ("pair", true),
        ("pair of a table with a block", block && onward + toward > 0),
        ("both go on", onward > 0 && toward > 0),
        ("neither goes on", onward + toward == 0 && length > 0),
        ("as long as the other order", onward == other && other > 0),
        ("longer than the own order", onward > length),
        ("no steps", length == 0 || other == 0),
        ("equal lengths", length == other && length > 0),
        ("much longer", length.abs_diff(other) > 40),
        ("some list ahead", aheads[0] + aheads[1] > 0),
        ("crosswise", aheads[0] > 0 && aheads[1] > 0),
        (
            "absence in a host list",
            joined.state.lists.iter().flatten().any(Option::is_none),
        ),
        (
            "communication still to come",
            ways.any(|step| step.output.is_some()),
        ),
        ("stop", joined.state.has_stopped_row()),
        (
            "stop of one only",
            first.end.has_stopped_row() != second.end.has_stopped_row(),
        ),
    ];
    let found = all.into_iter().filter(|&(_, holds)| holds);
    found.map(|(sort, _)| sort).collect()
}

/// The sorts of two random orders of a table and their common state.
fn join_pair(
    program: &Program,
    readings: &Readings,
    lengths: [usize; 2],
    random: &mut Random,
) -> Vec<&'static str> {
    let [first, second] =
        lengths.map(|length| Order::random(program, readings, length, random.number()));
    let joined = joined(program, readings, &first, &second);
    sorts(program, &first, &second, &joined)
}

/// Joins so many pairs of random orders of one table and counts them by sort.
fn join_pairs(
    (program, readings): &(Program, Readings),
    pairs: usize,
    most: usize,
    seed: u64,
    tally: &mut Tally,
) {
    let mut random = Random::new(seed);
    for _ in 0..pairs {
        let lengths = lengths(&mut random, most);
        for sort in join_pair(program, readings, lengths, &mut random) {
            *tally.entry(sort).or_default() += 1;
        }
    }
}

/// Joins pairs of orders of those tables of these seeds that never rest.
fn join_looping(seeds: u64, small: bool, aim: Aim) -> Tally {
    let mut tally = Tally::new();
    for seed in 0..seeds {
        let found = program(seed, small, aim);
        if let Some(found) = found.filter(goes_on) {
            join_pairs(&found, PAIRS, 40, seed, &mut tally);
        }
    }
    println!("{tally:?}");
    tally
}

#[test]
fn loops_that_write_to_the_host() {
    let tally = join_looping(1_500, false, Aim::Endless);
    let least = [
        ("pair", 8_000),
        ("pair of a table with a block", 4_500),
        ("both go on", 4_000),
        ("neither goes on", 80),
        ("as long as the other order", 1_000),
        ("longer than the own order", 2_000),
        ("no steps", 1_000),
        ("equal lengths", 900),
        ("much longer", 500),
        ("some list ahead", 6_000),
        ("crosswise", 1_000),
        ("absence in a host list", 2_500),
        ("communication still to come", 1_100),
        ("stop", 1_800),
        ("stop of one only", 1_200),
    ];
    assert_enough(&tally, &least);
}

#[test]
fn loops_of_small_tables() {
    let tally = join_looping(2_000, true, Aim::Endless);
    let least = [
        ("pair", 8_000),
        ("pair of a table with a block", 2_500),
        ("crosswise", 900),
        ("absence in a host list", 4_500),
        ("communication still to come", 1_200),
        ("stop", 500),
    ];
    assert_enough(&tally, &least);
}

#[test]
fn other_tables_that_never_rest() {
    let tally = join_looping(1_500, false, Aim::WithoutAlt);
    let least = [
        ("pair", 500),
        ("pair of a table with a block", 300),
        ("absence in a host list", 60),
        ("communication still to come", 80),
        ("stop", 40),
    ];
    assert_enough(&tally, &least);
}

#[test]
fn loops_of_the_stored_cases() {
    let mut inputs: Vec<(String, Vec<u8>)> = stored_inputs().collect();
    inputs.retain(|(name, _)| name.contains("q14-"));
    inputs.sort();
    let mut tally = Tally::new();
    for (seed, (_, input)) in (0..).zip(&inputs) {
        let (table, sheet) = split_input(input);
        let found = accepted(table, sheet).filter(|(program, _)| !program.has_alt());
        if let Some(found) = found {
            join_pairs(&found, 100, 40, seed, &mut tally);
        }
    }
    println!("{tally:?}");
    let least = [
        ("pair", 1_900),
        ("pair of a table with a block", 300),
        ("crosswise", 300),
        ("absence in a host list", 500),
        ("communication still to come", 200),
        ("stop of one only", 100),
    ];
    assert_enough(&tally, &least);
}

#[test]
fn check_12_small_tables_up_to_9_steps() {
    let mut tally = Tally::new();
    for seed in 0..3_000 {
        let aim = match seed % 2 {
            0 => Aim::WithoutAlt,
            _ => Aim::Endless,
        };
        if let Some(found) = program(seed, true, aim) {
            join_pairs(&found, PAIRS, 9, seed, &mut tally);
        }
    }
    println!("{tally:?}");
    let least = [
        ("pair", 20_000),
        ("pair of a table with a block", 5_000),
        ("both go on", 3_500),
        ("as long as the other order", 4_000),
        ("crosswise", 800),
        ("absence in a host list", 4_000),
        ("communication still to come", 1_800),
        ("stop of one only", 1_000),
    ];
    assert_enough(&tally, &least);
}
