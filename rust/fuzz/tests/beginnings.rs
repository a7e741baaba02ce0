//! A second call with other choices and another budget (request 14), on inputs from seeds: without ALT
//! the lists of the two are beginnings of one another, and the calls are of all sorts.

use fuzz::inputs::versions;
use fuzz::{compare, compare_beginnings, Given};
use occam_table::Machine;
use reference::generate::{generate, Aim};
use std::collections::BTreeMap;

/// Counts second calls by how the lists stand to one another.
type Tally = BTreeMap<&'static str, u64>;

/// Compares an input and its second call, and counts it.
fn count(given: &Given, machine: &mut Machine, tally: &mut Tally) {
    let answer = compare(given, machine).expect("no difference");
    let ahead = compare_beginnings(given, &answer, machine).expect("beginnings");
    let Some(ahead) = ahead else {
        return;
    };
    let sorts = [
        ("second call", true),
        ("first ahead", ahead.first > 0),
        ("second ahead", ahead.second > 0),
        ("crosswise", ahead.first > 0 && ahead.second > 0),
        ("absences", ahead.absences),
    ];
    for (sort, _) in sorts.into_iter().filter(|&(_, holds)| holds) {
        *tally.entry(sort).or_default() += 1;
    }
}

/// Asks for so many of each sort at least.
fn assert_enough(tally: &Tally, least: &[(&str, u64)]) {
    println!("{tally:?}");
    for (sort, least) in least {
        assert!(tally.get(sort) >= Some(least), "{sort} in {tally:?}");
    }
}

#[test]
fn inputs_of_all_sorts() {
    let (mut machine, mut tally) = (Machine::new(), Tally::new());
    for given in (0..500).flat_map(versions) {
        count(&given, &mut machine, &mut tally);
    }
    assert_enough(&tally, &[("second call", 1_000), ("absences", 50)]);
}

#[test]
fn loops_without_an_end() {
    let (mut machine, mut tally) = (Machine::new(), Tally::new());
    for seed in 0..2_000_u64 {
        let small = seed.is_multiple_of(2);
        let (table, sheet, choices, _) = generate(seed, small, Some(Aim::Endless)).parts();
        let given = Given::new(&table, &sheet, choices, (seed % 120) as u32);
        count(&given, &mut machine, &mut tally);
    }
    let least = [
        ("second call", 1_900),
        ("first ahead", 600),
        ("second ahead", 1_100),
        ("crosswise", 230),
        ("absences", 600),
    ];
    assert_enough(&tally, &least);
}
