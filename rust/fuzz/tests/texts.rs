//! Texts: the rows read, verdicts and whole answers of the proved library against the separate
//! program, on texts from seeds.
//!
//! By hand, as many as are asked for (`OCCAM_SEED` is the first seed):
//! `OCCAM_TRIALS=1000000 cargo test --offline --release -p fuzz --test texts -- --ignored
//! --nocapture`

use fuzz::compare_text;
use fuzz::inputs::text_versions;
use fuzz::trials::{compare_asked, compare_seeds};

const TRIALS: u64 = 20_000;

#[test]
fn texts_agree() {
    let tally = compare_seeds(0, TRIALS, text_versions, compare_text);
    assert_eq!(tally.values().sum::<u64>(), TRIALS);
    let least = [
        ("ended", 1_000),
        ("stuck", 200),
        ("broken", 200),
        ("spent", 200),
        ("refused 1", 500),
        ("refused 3", 100),
        ("refused 4", 500),
        ("refused 6", 50),
        ("refused 7", 50),
        ("refused 8", 50),
        ("refused 9", 50),
        ("refused 10", 500),
        ("refused 11", 200),
        ("refused 12", 4_000),
        ("refused 13", 1_000),
        ("refused 14", 50),
    ];
    for (name, least) in least {
        assert!(tally.get(name) >= Some(&least), "{name} in {tally:?}");
    }
}

#[test]
#[ignore = "long; by hand"]
fn many_texts_agree() {
    compare_asked(1_000_000, text_versions, compare_text);
}
