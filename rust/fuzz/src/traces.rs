//! Traced runs against the separate program: the answer, the buffers, and each step.

use crate::lending::{same_numbers, Lending};
use crate::packed::packed_answer;
use crate::{same, Given};
use occam_table::{calls, LentTrace, Machine};
use reference::table::rows_of_bytes;
use reference::{Answer, Source, Traced, BUFFER_LENGTHS, TRACE_LENGTH};

/// A number that no run leaves in the lists.
const UNTOUCHED: u16 = 7_777;

/// Compares the traced answers to bytes and to rows, with lists of these lengths, and the
/// binding's view of the steps; tells how many steps the run took.
pub fn compare_traces(
    given: &Given,
    lists: [usize; 2],
    machine: &mut Machine,
) -> Result<usize, String> {
    let Given {
        table,
        sheet,
        choices,
        budget,
        lengths,
        numbers,
    } = given;
    let long = u64::from(*budget);
    let traced = Source::Bytes(table).traced(sheet, choices, long, *lengths, lists);
    compare_call("bytes", *lengths, lists, &traced, |lent, trace| {
        calls::run_table_traced(table, sheet, choices, *budget, lent.lend(), trace)
    })?;
    let rows = numbers.clone().unwrap_or_else(|| numbers_of(table));
    let of_rows = Source::Numbers(&rows).traced(sheet, choices, long, *lengths, lists);
    compare_call("rows", *lengths, lists, &of_rows, |lent, trace| {
        calls::run_rows_traced(&rows, sheet, choices, *budget, lent.lend(), trace)
    })?;
    let whole = [TRACE_LENGTH; 2];
    let traced = Source::Bytes(table).traced(sheet, choices, long, BUFFER_LENGTHS, whole);
    compare_binding(given, &traced, machine)?;
    Ok(traced.steps.len())
}

/// The rows of a table as numbers; none if its bytes are refused.
fn numbers_of(table: &[u8]) -> Vec<i32> {
    let rows = rows_of_bytes(table).unwrap_or_default();
    let each = rows.iter().flat_map(|row| [row.kind, row.a, row.b, row.c]);
    each.collect()
}

/// Compares one traced call: its answer, the seven buffers and the two lists.
fn compare_call(
    what: &str,
    lengths: [usize; 7],
    lists: [usize; 2],
    wanted: &Traced,
    call: impl FnOnce(&mut Lending, LentTrace) -> u64,
) -> Result<(), String> {
    let mut lent = Lending::new(lengths);
    let [mut ready, mut taken] = lists.map(|length| vec![UNTOUCHED; length]);
    let trace = LentTrace {
        ready: &mut ready,
        taken: &mut taken,
    };
    let packed = call(&mut lent, trace);
    let what = format!("traced {what}");
    same(&what, packed, packed_answer(&wanted.answer))?;
    lent.compare(&what, &wanted.answer)?;
    let counts = wanted.steps.iter().map(|step| step.ready as u16);
    let rows = wanted.steps.iter().map(|step| step.row as u16);
    let ran = matches!(wanted.answer, Answer::Ran(_));
    same_numbers(&what, "ready", &ready, &list(ran, counts, lists[0]))?;
    same_numbers(&what, "taken", &taken, &list(ran, rows, lists[1]))
}

/// What a lent list of this length holds after a call: after a run its steps, 0 up to the limit and
/// what was there past it; after a refusal what was there.
fn list(ran: bool, steps: impl Iterator<Item = u16>, length: usize) -> Vec<u16> {
    let mut numbers = vec![UNTOUCHED; length];
    if ran {
        numbers[..TRACE_LENGTH].fill(0);
        let pairs = numbers.iter_mut().zip(steps);
        pairs.for_each(|(number, step)| *number = step);
    }
    numbers
}

/// Compares the binding's view of a traced run.
fn compare_binding(given: &Given, wanted: &Traced, machine: &mut Machine) -> Result<(), String> {
    let Given {
        table,
        sheet,
        choices,
        budget,
        ..
    } = given;
    let steps: Vec<(usize, usize)> = match machine.run_table_traced(table, sheet, choices, *budget)
    {
        Ok(traced) => {
            let ready = match &wanted.answer {
                Answer::Ran(ran) => ran.ready,
                Answer::Refused(refusal) => return Err(format!("a run, not {refusal}")),
            };
            same("ready after a traced run", traced.run.ready as usize, ready)?;
            let each = traced.steps().map(|step| (step.ready as usize, step.row));
            each.collect()
        }
        Err(_) => Vec::new(),
    };
    let each = wanted.steps.iter().map(|step| (step.ready, step.row));
    same("steps of the binding", steps, each.collect())
}
