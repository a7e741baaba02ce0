//! A fuzz target: reads the sheet runner's input (a table or a text, a line `=`, a sheet) from
//! standard input, takes its first part as a table and as a text, and aborts where the proved library
//! and the separate program differ.
//!
//! It runs with no choices, and with choices that follow from the input's bytes. The budget is
//! small, so that a loop that never ends costs little.

use fuzz::random::Random;
use fuzz::{compare, compare_text, Given};
use occam_table::Machine;
use reference::printing::split_input;
use std::io::Read;

/// The budget of each run.
const BUDGET: u32 = 2_000;
/// No more bytes than this settle what is answered.
const MOST_BYTES: u64 = 32_768 + 2 + 16_385;

fn main() {
    let mut input = Vec::new();
    if let Err(error) = std::io::stdin().take(MOST_BYTES).read_to_end(&mut input) {
        eprintln!("standard input: {error}");
        std::process::exit(2);
    }
    let (table, sheet) = split_input(&input);
    let mut machine = Machine::new();
    for choices in [Vec::new(), choices_of(&input)] {
        let given = Given::new(table, sheet, choices, BUDGET);
        for compare in [compare, compare_text] {
            if let Err(difference) = compare(&given, &mut machine) {
                eprintln!("{difference}");
                std::process::abort();
            }
        }
    }
}

/// Choices that follow from the bytes.
fn choices_of(bytes: &[u8]) -> Vec<u16> {
    let mut random = Random::of(bytes);
    (0..256).map(|_| random.below(65_536) as u16).collect()
}
