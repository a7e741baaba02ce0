//! What the proved sheet runner prints, against the separate program.

use reference::generate::{generate, Aim};
use reference::printing::{printed, split_input};
use reference::{answer_bytes, BUDGET_LIMIT, BUFFER_LENGTHS};
use runner_tests::Runner;
use std::thread;

const INPUTS: u64 = 20_000;

/// What the separate program prints for an input of the sheet runner.
fn expected(input: &[u8]) -> Vec<u8> {
    let (table, sheet) = split_input(input);
    let answer = answer_bytes(table, sheet, &[], BUDGET_LIMIT, BUFFER_LENGTHS);
    printed(&answer, false).into_bytes()
}

/// Panics if the two programs print different bytes.
fn compare(runner: &Runner, input: &[u8], what: &str) {
    let got = runner.print(input).expect("the program runs");
    let want = expected(input);
    assert!(
        got == want,
        "{what}: wanted\n{}got\n{}",
        String::from_utf8_lossy(&want),
        String::from_utf8_lossy(&got)
    );
}

/// Compares the inputs of the seeds `first`, `first + step`, ...; gives how many they are.
fn compare_seeds(first: u64, step: u64) -> u64 {
    let runner = Runner::new(&first.to_string());
    let seeds = (first..INPUTS).step_by(step as usize);
    seeds
        .map(|seed| {
            let input = generate(seed, false, None).bytes;
            compare(&runner, &input, &format!("seed {seed}"));
        })
        .count() as u64
}

#[test]
fn generated_inputs() {
    let threads = thread::available_parallelism().map_or(1, |count| count.get() as u64);
    let compared: u64 = thread::scope(|scope| {
        let parts: Vec<_> = (0..threads)
            .map(|first| scope.spawn(move || compare_seeds(first, threads)))
            .collect();
        parts
            .into_iter()
            .map(|part| part.join().expect("a difference"))
            .sum()
    });
    assert_eq!(compared, INPUTS);
}

/// What comes after 49,155 bytes changes nothing.
#[test]
fn longer_than_is_read() {
    let runner = Runner::new("longer");
    for seed in 0..40 {
        let mut input = generate(seed, true, Some(Aim::Accepted)).bytes;
        for size in [49_154, 49_155, 49_156, 65_536, 200_000] {
            input.resize(size.max(input.len()), b"1,\n="[seed as usize % 4]);
            compare(&runner, &input, &format!("seed {seed} at {size} bytes"));
        }
    }
}

/// Parts of an input: cut anywhere, the table alone, the sheet alone, the two exchanged.
#[test]
fn parts_of_inputs() {
    let runner = Runner::new("parts");
    for seed in 0..200 {
        let input = generate(seed, true, Some(Aim::Accepted)).bytes;
        let (table, sheet) = split_input(&input);
        let cut = seed as usize * 7 % (input.len() + 1);
        let exchanged = [sheet, b"=\n", table].concat();
        for part in [&input[..cut], &input[cut..], table, sheet, &exchanged] {
            compare(&runner, part, &format!("a part of seed {seed}"));
        }
    }
}
