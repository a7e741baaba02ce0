//! Comparisons of many inputs from seeds, counted by what the answers are.

use crate::inputs::VERSIONS;
use crate::Given;
use occam_table::Machine;
use reference::Answer;
use std::collections::BTreeMap;

/// Counts answers by what they are.
pub type Tally = BTreeMap<String, u64>;

/// A comparison of one input: the separate program's answer, or the first difference.
pub type Comparison = fn(&Given, &mut Machine) -> Result<Answer, String>;

/// The name of an answer for the tally.
fn name_of(answer: &Answer) -> String {
    match answer {
        Answer::Refused(refusal) => format!("refused {}", refusal.number),
        Answer::Ran(ran) => ran.outcome.word().to_string(),
    }
}

/// Compares this many inputs: all versions of each seed from a first one on.
pub fn compare_seeds<I: Iterator<Item = Given>>(
    first: u64,
    trials: u64,
    versions: fn(u64) -> I,
    compare: Comparison,
) -> Tally {
    let mut machine = Machine::new();
    let mut tally = Tally::new();
    for trial in 0..trials / VERSIONS {
        let seed = first + trial;
        for (version, given) in versions(seed).enumerate() {
            match compare(&given, &mut machine) {
                Ok(answer) => *tally.entry(name_of(&answer)).or_default() += 1,
                Err(difference) => {
                    let input = String::from_utf8_lossy(&given.table);
                    panic!("seed {seed} version {version}: {difference}\n{input}")
                }
            }
        }
        if ((trial + 1) * VERSIONS).is_multiple_of(1_000_000) {
            println!("{} compared", (trial + 1) * VERSIONS);
        }
    }
    println!("{tally:?}");
    tally
}

/// Compares as many as the surroundings ask for: `OCCAM_TRIALS` inputs from the seed `OCCAM_SEED` on.
pub fn compare_asked<I: Iterator<Item = Given>>(
    otherwise: u64,
    versions: fn(u64) -> I,
    compare: Comparison,
) {
    let (first, trials) = (
        asked("OCCAM_SEED", 1_000_000),
        asked("OCCAM_TRIALS", otherwise),
    );
    compare_seeds(first, trials, versions, compare);
}

/// A number from the surroundings.
fn asked(name: &str, otherwise: u64) -> u64 {
    let given = std::env::var(name).ok();
    given.map_or(otherwise, |text| text.parse().expect("a whole number"))
}
