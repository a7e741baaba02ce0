//! Traced runs: for each step how many were ready and the row that orders the one taken, by the
//! proved library and by the separate program, on the stored cases and on inputs from seeds.

mod stored;

use fuzz::inputs::{versions, VERSIONS};
use fuzz::{compare_traces, Given};
use occam_table::{read_text, Machine};
use reference::printing::split_input;
use reference::TRACE_LENGTH;
use std::fmt::Write;
use std::fs;
use std::path::Path;
use stored::{cases, output, words};

const INPUTS: u64 = 4_000;

#[test]
fn stored_cases_have_these_steps() {
    let mut machine = Machine::new();
    let mut steps = 0;
    for path in cases() {
        let input = fs::read(&path).expect("bytes");
        let (table, sheet) = split_input(&input);
        for choices in [vec![], vec![65_535, 3, 2, 1, 7, 7, 7, 7, 7]] {
            let given = Given::new(table, sheet, choices, 65_536);
            match compare_traces(&given, [TRACE_LENGTH; 2], &mut machine) {
                Ok(taken) => steps += taken,
                Err(difference) => panic!("{}: {difference}", path.display()),
            }
        }
    }
    assert!(steps > 500_000, "{steps} steps");
}

/// What the binding tells of a case that asks for its steps, as the separate program prints it.
fn printed(case: &Path, machine: &mut Machine) -> String {
    let words = words(case);
    let after = |flag: &str| {
        let at = words.iter().position(|word| word == flag)?;
        words.get(at + 1)
    };
    let budget = after("--budget").map_or(65_536, |text| text.parse().expect("a number"));
    let choices: Vec<u16> = after("--choices").map_or(Vec::new(), |text| {
        let each = text.split(',').map(|word| word.parse().expect("a number"));
        each.collect()
    });
    let input = fs::read(case).expect("bytes");
    let (table, sheet) = split_input(&input);
    let traced = match words.iter().any(|word| word == "--text") {
        true => {
            let rows = read_text(table).expect("read");
            machine.run_rows_traced(rows.as_flattened(), sheet, &choices, budget)
        }
        false => machine.run_table_traced(table, sheet, &choices, budget),
    };
    let mut text = String::new();
    match traced {
        Ok(traced) => {
            for (number, step) in (1..).zip(traced.steps()) {
                writeln!(text, "step,{number},{},{}", step.ready, step.row).expect("written");
            }
            writeln!(text, "ready,{}", traced.run.ready).expect("written");
        }
        Err(refusal) => writeln!(text, "{refusal}").expect("written"),
    }
    text
}

#[test]
fn stored_steps_are_those_of_the_binding() {
    let mut machine = Machine::new();
    let mut count = 0;
    for case in cases() {
        let words = words(&case);
        let asked = |flag: &str| words.iter().any(|word| word == flag);
        if asked("--trace") && !asked("--lists") && !asked("--numbers") {
            let name = case.display();
            assert_eq!(printed(&case, &mut machine), output(&case), "{name}");
            count += 1;
        }
    }
    assert!(count >= 8, "{count} cases");
}

#[test]
fn generated_inputs_have_these_steps() {
    let mut machine = Machine::new();
    let mut steps = 0;
    for seed in 0..INPUTS / VERSIONS {
        for (version, given) in versions(seed).enumerate() {
            let longer = [TRACE_LENGTH + version % 2, TRACE_LENGTH + version % 3];
            let lists = match (seed + version as u64) % 16 {
                0 => [TRACE_LENGTH - 1, TRACE_LENGTH],
                1 => [TRACE_LENGTH, TRACE_LENGTH - 1],
                2 => [0, 0],
                _ => longer,
            };
            match compare_traces(&given, lists, &mut machine) {
                Ok(taken) => steps += taken,
                Err(difference) => panic!("seed {seed} version {version}: {difference}"),
            }
        }
    }
    assert!(steps > 100_000, "{steps} steps");
}
