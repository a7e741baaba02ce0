//! Texts against the separate program: the rows read, the verdict, the answer and what it leaves.

use crate::lending::Lending;
use crate::packed::{packed_answer, packed_refusal, packed_verdict};
use crate::{compare_run_or_refusal, same, Given};
use occam_table::{calls, Machine};
use reference::table::Row;
use reference::text::{read_text_into, ROW_NUMBERS};
use reference::{Answer, Refusal, Source, BUFFER_LENGTHS};

/// A number that no reading leaves.
const UNTOUCHED: i32 = -77_777;

/// The lengths of the lists that are lent for rows: too short, just enough, longer.
const ROOMS: [usize; 3] = [ROW_NUMBERS - 1, ROW_NUMBERS, 5_000];

/// Compares all that the library answers about an input whose table is a text: the separate
/// program's answer, or the first difference.
pub fn compare_text(given: &Given, machine: &mut Machine) -> Result<Answer, String> {
    let text = &given.table;
    for room in ROOMS {
        compare_reading(text, room)?;
    }
    compare_verdict(text)?;
    let answer = compare_answer(given)?;
    compare_binding(given, machine)?;
    Ok(answer)
}

/// Compares the reading of a text with a list of this length for the rows: what is answered, and
/// all that the list then holds.
fn compare_reading(text: &[u8], room: usize) -> Result<(), String> {
    let wanted = read_text_into(text, room);
    let mut rows = vec![UNTOUCHED; room];
    let packed = calls::read_text(text, &mut rows);
    let told = wanted
        .as_ref()
        .map_or_else(packed_refusal, |rows| 65_536 * rows.len() as u64);
    same(&format!("reading into {room}"), packed, told)?;
    let left = numbers_left(&wanted, room);
    let mut pairs = rows.iter().zip(&left);
    match pairs.position(|(one, other)| one != other) {
        Some(at) => same(&format!("number {at} of {room}"), rows[at], left[at]),
        None => Ok(()),
    }
}

/// What a list of this length holds after a reading: the rows, 0 up to the limit, past it what it
/// held before; all of that after a refusal.
fn numbers_left(read: &Result<Vec<Row>, Refusal>, room: usize) -> Vec<i32> {
    let mut left = vec![UNTOUCHED; room];
    if let Ok(rows) = read {
        left[..ROW_NUMBERS].fill(0);
        for (place, row) in left.chunks_exact_mut(4).zip(rows) {
            place.copy_from_slice(&[row.kind, row.a, row.b, row.c]);
        }
    }
    left
}

/// Compares the verdict, and the binding's view of it and of the rows.
fn compare_verdict(text: &[u8]) -> Result<(), String> {
    let wanted = Source::Text(text).checked().verdict;
    same(
        "verdict on a text",
        calls::check_text(text),
        packed_verdict(&wanted),
    )?;
    let told = |refusal: &occam_table::Refusal| (refusal.number, refusal.place);
    let separate = |refusal: &Refusal| (refusal.number, refusal.place);
    let verdict = occam_table::check_text(text);
    let wanted = wanted.map(|_| ()).as_ref().map_err(separate).copied();
    same(
        "verdict of the binding on a text",
        verdict.as_ref().map_err(told).copied(),
        wanted,
    )?;
    let read = occam_table::read_text(text).map(|rows| rows.len());
    let wanted = reference::read_text(text).map(|rows| rows.len());
    let (read, wanted) = (
        read.as_ref().map_err(told),
        wanted.as_ref().map_err(separate),
    );
    same("rows of the binding", read, wanted)
}

/// Compares the answer to a text, and what each lent buffer then holds.
fn compare_answer(given: &Given) -> Result<Answer, String> {
    let Given {
        table: text,
        sheet,
        choices,
        budget,
        lengths,
        ..
    } = given;
    let answer = Source::Text(text).answer(sheet, choices, u64::from(*budget), *lengths);
    let mut lent = Lending::new(*lengths);
    let packed = calls::run_text(text, sheet, choices, *budget, lent.lend());
    same("answer to a text", packed, packed_answer(&answer))?;
    lent.compare("buffers after a text", &answer)?;
    Ok(answer)
}

/// Compares the binding's view of a run, and that a refusal changes nothing in its buffers.
fn compare_binding(given: &Given, machine: &mut Machine) -> Result<(), String> {
    let Given {
        table: text,
        sheet,
        choices,
        budget,
        ..
    } = given;
    let answer = Source::Text(text).answer(sheet, choices, u64::from(*budget), BUFFER_LENGTHS);
    compare_run_or_refusal(machine, answer, |machine| {
        machine.run_text(text, sheet, choices, *budget)
    })
}
