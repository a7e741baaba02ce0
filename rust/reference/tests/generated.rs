//! Generated inputs: all get an answer, of all sorts; without ALT all orders agree at rest.

use reference::explore::{explore, Finding};
use reference::generate::{generate, input, small_input, Aim};
use reference::kinds::{ALT, BLOCK, INNER, INPUT};
use reference::printing::{printed, split_input};
use reference::program::Program;
use reference::sheet::{readings_of_bytes, Readings};
use reference::state::State;
use reference::steps::{ready_steps, take_step, Step};
use reference::{answer_bytes, check_bytes, Answer, Outcome, Ran, BUDGET_LIMIT, BUFFER_LENGTHS};
use std::collections::HashMap;

/// Refusals by number, and outcomes by word.
fn count_answers(inputs: impl Iterator<Item = Answer>) -> HashMap<String, usize> {
    let mut counts = HashMap::new();
    for answer in inputs {
        let name = match &answer {
            Answer::Refused(refusal) => refusal.number.to_string(),
            Answer::Ran(ran) => ran.outcome.word().to_string(),
        };
        *counts.entry(name).or_insert(0) += 1;
        assert!(!printed(&answer, true).is_empty());
    }
    counts
}

/// Whether a mix has each outcome in at least 5 of 100 and each of these refusals in 1 of 200.
fn assert_mixed(counts: &HashMap<String, usize>, refusals: &[u8]) {
    let total: usize = counts.values().sum();
    let of = |name: &str| counts.get(name).copied().unwrap_or(0);
    let mut accepted = 0;
    for outcome in ["ended", "stuck", "broken", "spent"] {
        assert!(of(outcome) * 20 >= total, "{outcome} in {counts:?}");
        accepted += of(outcome);
    }
    assert!(
        accepted * 100 >= total * 40 && accepted * 100 <= total * 65,
        "{counts:?}"
    );
    for number in refusals {
        assert!(
            of(&number.to_string()) * 200 >= total,
            "{number} in {counts:?}"
        );
    }
}

#[test]
fn inputs_are_mixed_and_none_panics() {
    let answers = (0..1_500).map(|seed| {
        let (table, sheet, choices, budget) = input(seed);
        answer_bytes(&table, &sheet, &choices, budget, BUFFER_LENGTHS)
    });
    assert_mixed(
        &count_answers(answers),
        &[2, 3, 4, 5, 6, 7, 8, 9, 10, 11, 14],
    );
}

#[test]
fn small_inputs_are_mixed_and_small() {
    let answers = (0..1_500).map(|seed| {
        let (table, sheet, choices, budget) = small_input(seed);
        assert!(table.len() + 2 + sheet.len() <= 1_002);
        let answer = answer_bytes(&table, &sheet, &choices, budget, BUFFER_LENGTHS);
        if let Answer::Ran(ran) = &answer {
            assert!(ran.steps <= 40 && ran.row_count <= 40);
        }
        answer
    });
    assert_mixed(&count_answers(answers), &[2, 4, 5, 6, 7, 8, 9, 10, 11, 14]);
}

#[test]
fn a_seed_gives_one_input() {
    for seed in 0..50 {
        assert_eq!(input(seed), input(seed));
    }
    assert_ne!(input(1), input(2));
}

#[test]
fn random_bytes_do_not_panic() {
    let mut number = 1u32;
    for length in 0..400 {
        let bytes: Vec<u8> = (0..length)
            .map(|_| {
                number = number.wrapping_mul(1_664_525).wrapping_add(1_013_904_223);
                b"0123456789,-\n=kindabc \r"[(number >> 16) as usize % 23]
            })
            .collect();
        let answer = answer_bytes(&bytes, &bytes, &[1, 2], 100, BUFFER_LENGTHS);
        assert!(matches!(answer, Answer::Refused(_)), "{bytes:?}");
    }
}

/// A program of the generator and its readings, if nothing refuses them.
fn accepted(seed: u64, aim: Aim) -> Option<(Program, Readings)> {
    let input = generate(seed, true, Some(aim));
    let (table, sheet) = split_input(&input.bytes);
    let program = check_bytes(table).ok()?;
    let readings = readings_of_bytes(sheet, &program.layout.readings).ok()?;
    Some((program, readings))
}

/// Takes the steps of one order, at most 40, and tells each.
fn follow(program: &Program, readings: &Readings, mut tell: impl FnMut(Step)) {
    follow_states(program, readings, |step, _| tell(step));
}

/// Takes the steps of one order, at most 40, and tells each with the state that it leaves.
fn follow_states(program: &Program, readings: &Readings, mut tell: impl FnMut(Step, &State)) {
    let mut state = State::start(program);
    let mut ready = Vec::new();
    for step_number in 0..40 {
        ready_steps(program, readings, &state, &mut ready);
        if ready.is_empty() {
            break;
        }
        let step = ready[step_number % ready.len()];
        take_step(program, readings, &mut state, step);
        tell(step, &state);
    }
}

#[test]
fn generated_runs_do_all_sorts_of_steps() {
    let mut counts: HashMap<&str, usize> = HashMap::new();
    for seed in 0..600 {
        let Some((program, readings)) = accepted(seed, Aim::Accepted) else {
            continue;
        };
        follow(&program, &readings, |step| {
            *counts.entry(name_of(&program, &step)).or_insert(0) += 1;
        });
    }
    for name in [
        "assignment",
        "test",
        "choice",
        "communication",
        "host read",
        "host write",
    ] {
        assert!(
            counts.get(name).copied().unwrap_or(0) >= 20,
            "{name} in {counts:?}"
        );
    }
    for name in ["option", "option with input", "stop"] {
        assert!(
            counts.get(name).copied().unwrap_or(0) >= 10,
            "{name} in {counts:?}"
        );
    }
}

/// Whether an output's absence passes in one order of at most 40 steps.
fn passes_absence(program: &Program, readings: &Readings) -> bool {
    let mut passes = false;
    follow(program, readings, |step| passes |= step.passes_absence());
    passes
}

/// Whether a block's start unsets a cell that was set, in one order of at most 40 steps. No step
/// without an input unsets a cell in any other way.
fn begins_without_its_value(program: &Program, readings: &Readings) -> bool {
    let mut before = State::start(program).cells;
    let mut begins = false;
    let mut seen = |step: Step, after: &State| {
        let takes = match step {
            Step::Input { .. } => true,
            Step::Option { passing, .. } => passing.is_some(),
            _ => false,
        };
        let mut cells = before.iter().zip(&after.cells);
        begins |= !takes && cells.any(|(before, after)| before.is_some() && after.is_none());
        before.clone_from(&after.cells);
    };
    follow_states(program, readings, &mut seen);
    begins
}

/// The sort of a step.
fn name_of(program: &Program, step: &Step) -> &'static str {
    match *step {
        Step::Assignment { .. } => "assignment",
        Step::Test { .. } => "test",
        Step::Choice { .. } => "choice",
        Step::Input { row, .. } => {
            assert_eq!(program.rows[row].kind, INPUT);
            let channel = &program.rows[program.rows[row].a as usize];
            if channel.b == INNER {
                "communication"
            } else {
                "host read"
            }
        }
        Step::HostWrite { .. } => "host write",
        Step::Option { passing: None, .. } => "option",
        Step::Option {
            passing: Some(_), ..
        } => "option with input",
        Step::Stop { .. } => "stop",
    }
}

/// All that demand 3 says is equal.
type Result3<'a> = (
    Outcome,
    u64,
    &'a [i32],
    &'a [u8],
    &'a [u8],
    &'a [u32],
    &'a [i32],
    &'a [u32],
    &'a [u8],
);

/// What a run answers and leaves.
fn result3(ran: &Ran) -> Result3<'_> {
    (
        ran.outcome,
        ran.steps,
        &ran.cells,
        &ran.marks,
        &ran.states,
        &ran.places,
        &ran.numbers,
        &ran.counts,
        &ran.output_marks,
    )
}

#[test]
fn without_alt_all_choices_agree_at_rest() {
    let counted = (0..3_000).map(|seed| choices_agree(seed, true));
    assert_enough(counted, 1_500, 1_000);
}

#[test]
fn without_alt_all_choices_agree_at_rest_in_larger_tables() {
    let counted = (0..600).map(|seed| choices_agree(seed, false));
    assert_enough(counted, 300, 250);
}

/// Whether enough runs came to rest, and enough of them after several steps.
fn assert_enough(steps_at_rest: impl Iterator<Item = Option<u64>>, runs: usize, several: usize) {
    let steps: Vec<u64> = steps_at_rest.flatten().collect();
    let long = steps.iter().filter(|&&steps| steps > 2).count();
    assert!(
        steps.len() >= runs && long >= several,
        "{} {long}",
        steps.len()
    );
}

/// Runs a table without ALT with several choice lists and budgets, which must agree if the first
/// comes to rest; tells after how many steps it did.
fn choices_agree(seed: u64, small: bool) -> Option<u64> {
    let input = generate(seed, small, Some(Aim::WithoutAlt));
    let (table, sheet) = split_input(&input.bytes);
    let run =
        |choices: &[u16], budget| match answer_bytes(table, sheet, choices, budget, BUFFER_LENGTHS)
        {
            Answer::Ran(ran) => Some(ran),
            Answer::Refused(_) => None,
        };
    let first = run(&[], BUDGET_LIMIT)?;
    if first.outcome == Outcome::Spent {
        return None;
    }
    for list in 0..6u64 {
        let choice = |step: u64| (step * 7_919 + list * 104_729) as u16;
        let choices: Vec<u16> = (0..first.steps).map(choice).collect();
        for budget in [BUDGET_LIMIT, first.steps] {
            let other = run(&choices, budget);
            let other = other.as_deref().map(result3);
            assert_eq!(other, Some(result3(&first)), "seed {seed} {choices:?}");
        }
        if first.steps > 0 {
            let less = first.steps * list / 6;
            let spent = run(&choices, less).map(|ran| (ran.outcome, ran.steps));
            assert_eq!(spent, Some((Outcome::Spent, less)), "seed {seed}");
        }
    }
    Some(first.steps)
}

#[test]
fn without_alt_all_orders_agree() {
    let mut agreeing = 0;
    let mut with_choice = 0;
    let mut with_absence = 0;
    let mut with_block = 0;
    for seed in 0..1_300 {
        let input = generate(seed, true, Some(Aim::WithoutAlt));
        let (table, sheet) = split_input(&input.bytes);
        let Some((program, readings)) = accepted(seed, Aim::WithoutAlt) else {
            continue;
        };
        assert!(!program.has_alt());
        match explore(&program, sheet, 3_000) {
            Ok(Finding::Differ { .. }) => panic!("orders differ: seed {seed}"),
            Ok(Finding::Agree {
                orders,
                length,
                outcome,
            }) => {
                agreeing += 1;
                with_choice += u32::from(orders > 1);
                with_absence += u32::from(orders > 1 && passes_absence(&program, &readings));
                with_block += u32::from(orders > 1 && has_block(&program));
                let run = answer_bytes(table, sheet, &[], BUDGET_LIMIT, BUFFER_LENGTHS);
                let Answer::Ran(run) = run else {
                    panic!("refused after it was explored: seed {seed}");
                };
                assert_eq!((run.outcome, run.steps), (outcome, length), "seed {seed}");
            }
            _ => {}
        }
    }
    assert!(
        agreeing >= 300 && with_choice >= 100 && with_absence >= 40 && with_block >= 60,
        "{agreeing} {with_choice} {with_absence} {with_block}"
    );
}

/// Whether a table has a block.
fn has_block(program: &Program) -> bool {
    program.rows.iter().any(|row| row.kind == BLOCK)
}

#[test]
fn generated_blocks_begin_again() {
    let (mut blocks, mut beginning) = (0, 0);
    for seed in 0..800 {
        let aim = match seed % 2 {
            0 => Aim::Accepted,
            _ => Aim::WithoutAlt,
        };
        let Some((program, readings)) = accepted(seed, aim) else {
            continue;
        };
        blocks += u32::from(has_block(&program));
        let begins = begins_without_its_value(&program, &readings);
        assert!(has_block(&program) || !begins, "seed {seed}");
        beginning += u32::from(begins);
    }
    assert!(blocks >= 300 && beginning >= 40, "{blocks} {beginning}");
}

#[test]
fn with_alt_orders_can_differ() {
    let differs = |seed: u64| {
        let (program, _) = accepted(seed, Aim::Accepted)?;
        let input = generate(seed, true, Some(Aim::Accepted));
        let (_, sheet) = split_input(&input.bytes);
        let found = explore(&program, sheet, 3_000).ok()?;
        let has_alt = program.rows.iter().any(|row| row.kind == ALT);
        let differs = matches!(found, Finding::Differ { .. });
        assert!(has_alt || !differs, "seed {seed}");
        Some(differs)
    };
    let found = (0..400)
        .filter_map(differs)
        .filter(|&differs| differs)
        .count();
    assert!(found >= 3, "{found}");
}

#[test]
fn deep_tables_fit_the_stack() {
    for seed in 0..120 {
        let input = generate(seed, false, Some(Aim::Shape));
        assert!(matches!(input.answer(), Answer::Ran(_)), "seed {seed}");
    }
}
