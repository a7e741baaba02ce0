//! How many steps are ready after a run: the proved library against the separate program's count, at
//! every budget up to 50, on the stored cases and on inputs from seeds.

mod stored;

use fuzz::inputs::{versions, VERSIONS};
use fuzz::{compare_totals, Given};
use reference::generate::{generate, Aim};
use reference::printing::split_input;
use std::fs;
use std::thread;
use stored::cases;

const MOST: u32 = 50;
const INPUTS: u64 = 20_000;

#[test]
fn stored_cases_have_these_totals() {
    let mut count = 0;
    for path in cases() {
        let input = fs::read(&path).expect("bytes");
        let (table, sheet) = split_input(&input);
        for choices in [vec![], vec![1; 50], vec![65_535, 3, 2, 1]] {
            let given = Given::new(table, sheet, choices, MOST);
            if let Err(difference) = compare_totals(&given, MOST) {
                panic!("{}: {difference}", path.display());
            }
        }
        count += 1;
    }
    assert!(count > 500, "{count} cases");
}

/// The inputs of a seed: the versions of a mixed one, and as many larger tables that are accepted,
/// in which more is ready.
fn inputs(seed: u64) -> impl Iterator<Item = Given> {
    let larger = (0..VERSIONS).map(move |number| {
        let aim = Some(Aim::Accepted);
        let (table, sheet, choices, _) = generate(VERSIONS * seed + number, false, aim).parts();
        Given::new(&table, &sheet, choices, MOST)
    });
    versions(seed).chain(larger)
}

/// Compares the inputs of the seeds `first`, `first + step`, ...; tells in how many inputs at least
/// one step was ready, and in how many at least three.
fn compare_seeds(first: u64, step: u64) -> [u64; 2] {
    let mut tally = [0, 0];
    for seed in (first..INPUTS / 2 / VERSIONS).step_by(step as usize) {
        for (number, given) in inputs(seed).enumerate() {
            match compare_totals(&given, MOST) {
                Ok(greatest) => {
                    tally[0] += u64::from(greatest >= 1);
                    tally[1] += u64::from(greatest >= 3);
                }
                Err(difference) => panic!("seed {seed}, input {number}: {difference}"),
            }
        }
    }
    tally
}

#[test]
fn generated_inputs_have_these_totals() {
    let threads = thread::available_parallelism().map_or(1, |count| count.get() as u64);
    let [some, several] = thread::scope(|scope| {
        let parts: Vec<_> = (0..threads)
            .map(|first| scope.spawn(move || compare_seeds(first, threads)))
            .collect();
        let tallies = parts.into_iter().map(|part| part.join().expect("equal"));
        tallies.fold([0, 0], |sum, one| [sum[0] + one[0], sum[1] + one[1]])
    });
    assert!(some > 12_000, "{some} inputs with a ready step");
    assert!(several > 2_000, "{several} inputs with three");
}
