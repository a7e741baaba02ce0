//! Whole answers of the proved library against the separate program, on inputs from seeds.
//!
//! By hand, as many as are asked for (`OCCAM_SEED` is the first seed):
//! `OCCAM_TRIALS=5000000 cargo test --offline --release -p fuzz --test differential -- --ignored
//! --nocapture`

use fuzz::compare;
use fuzz::inputs::versions;
use fuzz::trials::{compare_asked, compare_seeds};

const TRIALS: u64 = 20_000;

#[test]
fn answers_agree() {
    let tally = compare_seeds(0, TRIALS, versions, compare);
    assert_eq!(tally.values().sum::<u64>(), TRIALS);
    for outcome in ["ended", "stuck", "broken", "spent"] {
        assert!(tally.get(outcome) > Some(&500), "{outcome} in {tally:?}");
    }
    for number in (1..=11).chain([14]) {
        let name = format!("refused {number}");
        assert!(tally.get(&name) > Some(&100), "{name} in {tally:?}");
    }
}

#[test]
#[ignore = "long; by hand"]
fn many_answers_agree() {
    compare_asked(5_000_000, versions, compare);
}
