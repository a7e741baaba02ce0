//! Runs of accepted tables without ALT that never rest, with different choices and budgets: on each
//! channel to the host the list of the one is a beginning of the other's, values and absences
//! (request 14).

use occam_table::{read_rows, Machine, Outcome, RowState, Snapshot};
use reference::generate::random::Random;
use reference::generate::{generate, Aim};
use reference::printing::split_input;
use std::collections::BTreeMap;
use std::fs;
use std::path::Path;

/// A table that goes on after so many steps of its desk order counts as one that never rests.
const LONG: u32 = 300;
/// How many pairs of runs of each generated table are compared.
const PAIRS: usize = 10;
/// The kinds of a block and an ALT.
const BLOCK: i32 = 35;
const ALT: i32 = 34;

/// How often each sort of pair came.
type Tally = BTreeMap<&'static str, usize>;

/// A table and its sheet.
type Input = (Vec<u8>, Vec<u8>);

/// Whether a table has a row of this kind.
fn has_kind(table: &[u8], kind: i32) -> bool {
    let rows = read_rows(table).unwrap_or_default();
    rows.iter().any(|row| row[0] == kind)
}

/// A run with random choices and a random budget: often small, at times none, at times long.
fn random_run(machine: &mut Machine, (table, sheet): &Input, random: &mut Random) -> Snapshot {
    let budget = match random.below(10) {
        0 => 0,
        1 => LONG as usize,
        _ => random.below(60),
    };
    let bound = random.pick(&[2, 3, 65_536]);
    let choices: Vec<u16> = (0..budget).map(|_| random.below(bound) as u16).collect();
    let run = machine.run_table(table, sheet, &choices, budget as u32);
    run.expect("accepted").snapshot()
}

/// How many lists of the one are longer than the other's.
fn ahead(one: &Snapshot, other: &Snapshot) -> usize {
    let lists = one.lists.iter().zip(&other.lists);
    lists.filter(|(one, other)| one.len() > other.len()).count()
}

/// Whether some row is stopped.
fn has_stop(state: &Snapshot) -> bool {
    let is_stopped = |state: &RowState| matches!(state, RowState::Stopped(_));
    state.states.iter().any(is_stopped)
}

/// Whether some list has an absence.
fn has_absence(state: &Snapshot) -> bool {
    state.lists.iter().flatten().any(Option::is_none)
}

/// Compares two runs channel by channel and tells what is to be said of them.
fn compared(one: &Snapshot, other: &Snapshot) -> Vec<&'static str> {
    assert_eq!(one.lists.len(), other.lists.len());
    for (list, other) in one.lists.iter().zip(&other.lists) {
        assert!(list.starts_with(other) || other.starts_with(list));
    }
    let aheads = [ahead(one, other), ahead(other, one)];
    let all = [
        ("pair", true),
        ("other budgets", one.steps != other.steps),
        ("some list ahead", aheads[0] + aheads[1] > 0),
        ("crosswise", aheads[0] > 0 && aheads[1] > 0),
        ("absence in both", has_absence(one) && has_absence(other)),
        ("stop", has_stop(one) || has_stop(other)),
        ("stop in one only", has_stop(one) != has_stop(other)),
    ];
    let found = all.into_iter().filter(|&(_, holds)| holds);
    found.map(|(sort, _)| sort).collect()
}

/// Compares so many pairs of random runs of a table without ALT and counts them by sort.
fn compare_pairs(input: &Input, pairs: usize, seed: u64, tally: &mut Tally) {
    let mut machine = Machine::new();
    let mut random = Random::new(seed);
    assert!(!has_kind(&input.0, ALT), "seed {seed}");
    let block = has_kind(&input.0, BLOCK);
    for _ in 0..pairs {
        let [one, other] = [0; 2].map(|_| random_run(&mut machine, input, &mut random));
        let of_a_block = block.then_some("pair of a table with a block");
        for sort in compared(&one, &other).into_iter().chain(of_a_block) {
            *tally.entry(sort).or_default() += 1;
        }
    }
}

/// A generated table that never rests, with its sheet.
fn looping(seed: u64, small: bool, aim: Aim) -> Option<Input> {
    let (table, sheet, _, _) = generate(seed, small, Some(aim)).parts();
    let mut machine = Machine::new();
    let run = machine.run_table(&table, &sheet, &[], LONG).ok()?;
    (run.outcome == Outcome::Spent).then_some((table, sheet))
}

/// Asks for so many of each sort at least.
fn assert_enough(tally: &Tally, least: &[(&str, usize)]) {
    println!("{tally:?}");
    for (sort, least) in least {
        assert!(tally.get(sort) >= Some(least), "{sort} in {tally:?}");
    }
}

#[test]
fn generated_loops() {
    let mut tally = Tally::new();
    for seed in 0..1_200 {
        let aim = match seed % 4 {
            0 => Aim::WithoutAlt,
            _ => Aim::Endless,
        };
        if let Some(input) = looping(seed, seed.is_multiple_of(3), aim) {
            compare_pairs(&input, PAIRS, seed, &mut tally);
        }
    }
    let least = [
        ("pair", 6_000),
        ("pair of a table with a block", 2_500),
        ("other budgets", 5_500),
        ("some list ahead", 5_000),
        ("crosswise", 400),
        ("absence in both", 1_500),
        ("stop", 1_300),
        ("stop in one only", 650),
    ];
    assert_enough(&tally, &least);
}

/// The stored cases of the request without ALT, in the order of their names.
fn stored() -> Vec<Input> {
    let folder = Path::new(env!("CARGO_MANIFEST_DIR")).join("../../cases");
    let files = fs::read_dir(folder).expect("the folder is there");
    let paths = files.map(|file| file.expect("a file").path());
    let mut cases: Vec<_> = paths
        .filter(|path| path.extension().is_some_and(|word| word == "in"))
        .filter(|path| path.display().to_string().contains("q14-"))
        .collect();
    cases.sort();
    let inputs = cases.iter().map(|path| {
        let input = fs::read(path).expect("bytes");
        let (table, sheet) = split_input(&input);
        (table.to_vec(), sheet.to_vec())
    });
    inputs.filter(|(table, _)| !has_kind(table, ALT)).collect()
}

#[test]
fn stored_loops() {
    let mut tally = Tally::new();
    for (seed, input) in (0..).zip(stored()) {
        compare_pairs(&input, 100, seed, &mut tally);
    }
    let least = [
        ("pair", 1_900),
        ("pair of a table with a block", 400),
        ("crosswise", 50),
        ("absence in both", 400),
        ("stop in one only", 80),
    ];
    assert_enough(&tally, &least);
}
