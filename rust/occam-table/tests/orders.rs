//! Orders of accepted tables without ALT: all that come to rest agree (demand 3).

use occam_table::{Machine, Outcome, Snapshot, BUDGET};
use reference::generate::{generate, Aim};

const TABLES: u64 = 400;
const ORDERS: u64 = 20;

/// Choices of one order, from a seed alone (splitmix64).
fn choices(seed: u64, count: usize) -> Vec<u16> {
    let mut state = seed;
    let mut next = || {
        state = state.wrapping_add(0x9E37_79B9_7F4A_7C15);
        let mut mixed = state;
        mixed = (mixed ^ (mixed >> 30)).wrapping_mul(0xBF58_476D_1CE4_E5B9);
        mixed = (mixed ^ (mixed >> 27)).wrapping_mul(0x94D0_49BB_1331_11EB);
        (mixed ^ (mixed >> 31)) as u16
    };
    (0..count).map(|_| next()).collect()
}

/// A table without ALT, its sheet, and the state in which its first order rests, if it does.
fn resting(machine: &mut Machine, seed: u64) -> Option<(Vec<u8>, Vec<u8>, Snapshot)> {
    let (table, sheet, _, _) =
        generate(seed, !seed.is_multiple_of(3), Some(Aim::WithoutAlt)).parts();
    let run = machine.run_table(&table, &sheet, &[], BUDGET).ok()?;
    let state = run.snapshot();
    (state.outcome != Outcome::Spent).then_some((table, sheet, state))
}

#[test]
fn orders_that_rest_agree() {
    let mut machine = Machine::new();
    let mut compared = 0;
    for seed in 0..TABLES {
        let Some((table, sheet, rest)) = resting(&mut machine, seed) else {
            continue;
        };
        for order in 0..ORDERS {
            let choices = choices(seed * ORDERS + order, rest.steps as usize);
            let mut run = |budget| {
                let run = machine.run_table(&table, &sheet, &choices, budget);
                run.expect("accepted").snapshot()
            };
            let state = run(BUDGET);
            assert_eq!(state, rest, "table {seed}, order {order}");
            let exact = run(rest.steps);
            assert_eq!(exact, rest, "table {seed}, order {order}, budget n");
            if rest.steps > 0 {
                let less = run(rest.steps - 1);
                let spent = (Outcome::Spent, rest.steps - 1);
                assert_eq!((less.outcome, less.steps), spent, "table {seed}");
            }
            compared += 1;
        }
    }
    assert!(compared > 4_000, "{compared} orders");
}
