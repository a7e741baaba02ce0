//! Comparisons of the proved library with the separate program, in whole answers.

mod beginnings;
mod checks;
pub mod inputs;
mod lending;
mod packed;
pub mod random;
mod texts;
mod traces;
pub mod trials;

pub use beginnings::{compare_beginnings, Ahead};
use checks::{compare_checks_of_bytes, compare_checks_of_rows};
use lending::Lending;
use occam_table::{calls, strip, Buffers, Machine, RowState, Run, Strip};
use packed::{packed_answer, packed_answer_at};
use reference::table::rows_of_bytes;
use reference::{answer_bytes, Answer, Ran, Source, BUFFER_LENGTHS, TRACE_LENGTH};
pub use texts::compare_text;
pub use traces::compare_traces;

/// What one comparison is given.
#[derive(Clone, Debug)]
pub struct Given {
    /// A table's bytes, or a text.
    pub table: Vec<u8>,
    pub sheet: Vec<u8>,
    pub choices: Vec<u16>,
    pub budget: u32,
    /// The lengths of the seven lent buffers.
    pub lengths: [usize; 7],
    /// Rows lent as numbers instead of those that the table has.
    pub numbers: Option<Vec<i32>>,
}

impl Given {
    /// An input with buffers as long as their limits.
    pub fn new(table: &[u8], sheet: &[u8], choices: Vec<u16>, budget: u32) -> Given {
        Given {
            table: table.to_vec(),
            sheet: sheet.to_vec(),
            choices,
            budget,
            lengths: BUFFER_LENGTHS,
            numbers: None,
        }
    }
}

/// Compares all that the library answers about an input: the separate program's answer to the
/// bytes, or the first difference.
pub fn compare(given: &Given, machine: &mut Machine) -> Result<Answer, String> {
    compare_checks_of_bytes(&given.table)?;
    let answer = compare_bytes(given)?;
    let rows = compare_rows_read(given)?;
    compare_strips(&rows, &answer)?;
    compare_numbers(given, given.numbers.as_ref().unwrap_or(&rows))?;
    compare_binding(given, machine)?;
    compare_beginnings(given, &answer, machine)?;
    Ok(answer)
}

/// Compares the total of ready steps, with outcome and steps, at every budget up to `most` (of a
/// refused input, which takes no step, at 0 and `most`); tells the greatest total met.
pub fn compare_totals(given: &Given, most: u32) -> Result<u64, String> {
    let Given {
        table,
        sheet,
        choices,
        ..
    } = given;
    let lists = [TRACE_LENGTH; 2];
    let traced =
        Source::Bytes(table).traced(sheet, choices, u64::from(most), BUFFER_LENGTHS, lists);
    let mut buffers = Buffers::default();
    let mut greatest = 0;
    let each = match traced.answer {
        Answer::Ran(_) => 1,
        Answer::Refused(_) => most.max(1) as usize,
    };
    for budget in (0..=most).step_by(each) {
        let packed = calls::run_table(table, sheet, choices, budget, buffers.lend());
        let wanted = packed_answer_at(budget, &traced);
        same(&format!("answer with budget {budget}"), packed, wanted)?;
        greatest = greatest.max(packed >> 40);
    }
    Ok(greatest)
}

/// That two things are equal, or words about the difference.
fn same<T: PartialEq + std::fmt::Debug>(what: &str, proved: T, separate: T) -> Result<(), String> {
    match proved == separate {
        true => Ok(()),
        false => Err(format!("{what}: {proved:?}, separate program {separate:?}")),
    }
}

/// Compares the answer to bytes, and what each lent buffer then holds.
fn compare_bytes(given: &Given) -> Result<Answer, String> {
    let Given {
        table,
        sheet,
        choices,
        budget,
        lengths,
        ..
    } = given;
    let answer = answer_bytes(table, sheet, choices, u64::from(*budget), *lengths);
    let mut lent = Lending::new(*lengths);
    let packed = calls::run_table(table, sheet, choices, *budget, lent.lend());
    same("answer to bytes", packed, packed_answer(&answer))?;
    lent.compare("buffers after bytes", &answer)?;
    Ok(answer)
}

/// Compares the verdict on rows lent as numbers and the answer to them, and what each lent buffer
/// then holds.
fn compare_numbers(given: &Given, numbers: &[i32]) -> Result<(), String> {
    let Given {
        sheet,
        choices,
        budget,
        lengths,
        ..
    } = given;
    compare_checks_of_rows(numbers)?;
    let answer = Source::Numbers(numbers).answer(sheet, choices, u64::from(*budget), *lengths);
    let mut lent = Lending::new(*lengths);
    let packed = calls::run_rows(numbers, sheet, choices, *budget, lent.lend());
    same("answer to rows", packed, packed_answer(&answer))?;
    lent.compare("buffers after rows", &answer)
}

/// Compares the rows read from bytes, into a buffer long enough and one too short.
fn compare_rows_read(given: &Given) -> Result<Vec<i32>, String> {
    const UNTOUCHED: i32 = -77_777;
    let rows = rows_of_bytes(&given.table).unwrap_or_default();
    let each = rows.iter().flat_map(|row| [row.kind, row.a, row.b, row.c]);
    let numbers: Vec<i32> = each.collect();
    let mut read = vec![UNTOUCHED; 4_097];
    let written = calls::read_rows(&given.table, &mut read) as usize;
    same("count of numbers read", written, numbers.len())?;
    same("rows read", &read[..written], &numbers[..])?;
    same("past the limit of rows", read[4_096], UNTOUCHED)?;
    let mut short = vec![UNTOUCHED; 4_095];
    let written = calls::read_rows(&given.table, &mut short);
    same("rows read into too little", written, 0)?;
    let untouched = short.iter().all(|&number| number == UNTOUCHED);
    same("too short a buffer of rows is untouched", untouched, true)?;
    Ok(numbers)
}

/// Compares where the strips of a run lie.
fn compare_strips(rows: &[i32], answer: &Answer) -> Result<(), String> {
    let Answer::Ran(ran) = answer else {
        return Ok(());
    };
    for (channel, part) in ran.layout.strips.iter().enumerate() {
        let wanted = Strip {
            begin: part.first,
            capacity: part.length,
        };
        same("strip", strip(rows, channel), wanted)?;
    }
    Ok(())
}

/// Compares the binding's view of a run, and that a refusal changes nothing in its buffers.
fn compare_binding(given: &Given, machine: &mut Machine) -> Result<(), String> {
    let Given {
        table,
        sheet,
        choices,
        budget,
        ..
    } = given;
    let answer = answer_bytes(table, sheet, choices, u64::from(*budget), BUFFER_LENGTHS);
    compare_run_or_refusal(machine, answer, |machine| {
        machine.run_table(table, sheet, choices, *budget)
    })
}

/// Compares a run of the binding, or its refusal, with an answer.
fn compare_run_or_refusal(
    machine: &mut Machine,
    answer: Answer,
    run: impl FnOnce(&mut Machine) -> Result<Run<'_>, occam_table::Refusal>,
) -> Result<(), String> {
    let before = machine.buffers().clone();
    match (run(machine), answer) {
        (Ok(run), Answer::Ran(ran)) => compare_run(&run, &ran),
        (Err(proved), Answer::Refused(separate)) => {
            let told = (separate.number, separate.place);
            same("refusal", (proved.number, proved.place), told)?;
            let untouched = *machine.buffers() == before;
            same("refused buffers are untouched", untouched, true)
        }
        (Ok(run), Answer::Refused(separate)) => {
            let run = (run.outcome, run.steps);
            Err(format!("{run:?}, separate program {separate:?}"))
        }
        (Err(proved), Answer::Ran(ran)) => {
            let ran = (ran.outcome, ran.steps);
            Err(format!("{proved:?}, separate program {ran:?}"))
        }
    }
}

/// Compares the binding's view of a run.
fn compare_run(run: &Run, ran: &Ran) -> Result<(), String> {
    same("outcome", run.outcome.word(), ran.outcome.word())?;
    same("steps", u64::from(run.steps), ran.steps)?;
    same("ready", run.ready as usize, ran.ready)?;
    let count: usize = ran.layout.variables.iter().map(|part| part.length).sum();
    let cell = |number: usize| (ran.marks[number] == 1).then_some(ran.cells[number]);
    let cells: Vec<Option<i32>> = (0..count).map(cell).collect();
    same("cells", run.cells().collect(), cells)?;
    let states: Vec<u8> = run.states().map(RowState::number).collect();
    same("states", &states[..], &ran.states[..ran.row_count])?;
    let channels = ran.layout.readings.len();
    same("places", run.places(), &ran.places[..channels])?;
    same("lists", run.lists().collect(), lists_of(ran))
}

/// What was written on each channel to the host, by the separate program: none for an absence.
fn lists_of(ran: &Ran) -> Vec<Vec<Option<i32>>> {
    let message = |at: usize| (ran.output_marks[at] == 1).then_some(ran.numbers[at]);
    let strips = ran.layout.strips.iter().zip(ran.counts);
    let lists = strips.map(|(strip, count)| {
        let written = strip.first..strip.first + count as usize;
        written.map(message).collect()
    });
    lists.collect()
}
