//! The answer to a table, a sheet, a list of choices and a budget: a result or a refusal.

use crate::limits::{Layout, CAPACITIES, CELLS, HOST_CHANNELS};
use crate::program::Program;
use crate::refusal::Refusal;
use crate::run::{run, End, Outcome, Taken};
use crate::sheet::readings_of_bytes;
use crate::table::{rows_of_bytes, rows_of_numbers, Row, ROWS};
use crate::text::read_text;

/// Greatest budget.
pub const BUDGET_LIMIT: u64 = 65_536;
/// Least lengths of the seven lent buffers: cells, marks, row states, places, output numbers,
/// counts, output marks.
pub const BUFFER_LENGTHS: [usize; 7] = [
    CELLS,
    CELLS,
    ROWS,
    HOST_CHANNELS,
    CAPACITIES,
    HOST_CHANNELS,
    CAPACITIES,
];
/// Least length of each of the two further lists that a traced run is lent: how many steps were
/// ready, and the rows taken. It is the greatest budget.
pub const TRACE_LENGTH: usize = 65_536;

/// A refusal with its place, or a result.
#[derive(Clone, Debug)]
pub enum Answer {
    Refused(Refusal),
    Ran(Box<Ran>),
}

/// A result: the outcome with steps, and what the run left below the buffers' limits.
#[derive(Clone, Debug)]
pub struct Ran {
    pub outcome: Outcome,
    pub steps: u64,
    /// How many steps are ready after the run.
    pub ready: usize,
    /// Each cell's value; 0 if it is unset or not declared.
    pub cells: [i32; CELLS],
    /// Each cell's set mark: 1 set, 0 unset.
    pub marks: [u8; CELLS],
    /// Each row's state.
    pub states: [u8; ROWS],
    /// Each role 1 channel's place in the readings.
    pub places: [u32; HOST_CHANNELS],
    /// The strips, each following the one before it by capacity; 0 for an absence.
    pub numbers: [i32; CAPACITIES],
    /// Each role 2 channel's count.
    pub counts: [u32; HOST_CHANNELS],
    /// Beside each number of the strips its set mark: 1 a value, 0 an absence or unused.
    pub output_marks: [u8; CAPACITIES],
    /// How many rows the table has.
    pub row_count: usize,
    /// Where each variable's cells and each channel's strip lie.
    pub layout: Layout,
}

/// The verdict on a table, and beside it the count of pairs compared (request 03).
#[derive(Clone, Debug)]
pub struct Checked {
    /// The program, or the first of refusals 2 to 9 and 12 to 14.
    pub verdict: Result<Program, Refusal>,
    /// How many pairs of components the clash search compared: up to the clash, it included, or all
    /// in each of the three sorts if there is none; 0 if the table is refused before.
    pub pairs: usize,
}

/// The answer to a traced call: the answer, and what each step of the run shows.
#[derive(Clone, Debug)]
pub struct Traced {
    pub answer: Answer,
    /// One entry for each step; none if the call is refused.
    pub steps: Vec<Taken>,
}

/// What a run is asked beside its table.
#[derive(Clone, Copy)]
struct Asked<'a> {
    sheet: &'a [u8],
    choices: &'a [u16],
    budget: u64,
    /// Whether each lent buffer is as long as its limit.
    room: bool,
}

impl<'a> Asked<'a> {
    /// What a run is asked that is lent buffers of these lengths.
    fn new(sheet: &'a [u8], choices: &'a [u16], budget: u64, lengths: [usize; 7]) -> Asked<'a> {
        Asked {
            sheet,
            choices,
            budget,
            room: have_room(lengths),
        }
    }

    /// The same of a traced run, which is lent two further lists of these lengths.
    fn with_lists(self, lists: [usize; 2]) -> Asked<'a> {
        Asked {
            room: self.room && have_trace_room(lists),
            ..self
        }
    }
}

/// What a call is given: the rows of a table, in one of three forms.
#[derive(Clone, Copy, Debug)]
pub enum Source<'a> {
    /// A table's bytes.
    Bytes(&'a [u8]),
    /// Rows lent as numbers, four to each.
    Numbers(&'a [i32]),
    /// An occam text (request 02).
    Text(&'a [u8]),
}

impl Source<'_> {
    /// The rows, or the refusal of the form: 2, 3 of bytes, 3 of numbers, 12, 13, 3 of a text.
    fn rows(self) -> Result<Vec<Row>, Refusal> {
        match self {
            Source::Bytes(table) => rows_of_bytes(table),
            Source::Numbers(numbers) => rows_of_numbers(numbers),
            Source::Text(text) => read_text(text),
        }
    }

    /// The answer to a sheet, choices and a budget, with lent buffers of these lengths.
    pub fn answer(self, sheet: &[u8], choices: &[u16], budget: u64, lengths: [usize; 7]) -> Answer {
        let asked = Asked::new(sheet, choices, budget, lengths);
        answer(self, asked, |_| {})
    }

    /// The answer with each step; `lists` are the lengths of the two further lists.
    pub fn traced(
        self,
        sheet: &[u8],
        choices: &[u16],
        budget: u64,
        lengths: [usize; 7],
        lists: [usize; 2],
    ) -> Traced {
        let asked = Asked::new(sheet, choices, budget, lengths).with_lists(lists);
        let mut steps = Vec::new();
        let answer = answer(self, asked, |taken| steps.push(taken));
        Traced { answer, steps }
    }

    /// The verdict, and the count of pairs compared.
    pub fn checked(self) -> Checked {
        let mut pairs = 0;
        let verdict = self
            .rows()
            .and_then(|rows| Program::check_counting(rows, &mut pairs));
        Checked { verdict, pairs }
    }
}

/// The answer to a table of bytes.
pub fn answer_bytes(
    table: &[u8],
    sheet: &[u8],
    choices: &[u16],
    budget: u64,
    lengths: [usize; 7],
) -> Answer {
    Source::Bytes(table).answer(sheet, choices, budget, lengths)
}

/// The verdict on a table of bytes: the program, or the first of refusals 2 to 9 and 14.
pub fn check_bytes(table: &[u8]) -> Result<Program, Refusal> {
    check_bytes_counted(table).verdict
}

/// The verdict on a table of bytes, and the count of pairs compared.
pub fn check_bytes_counted(table: &[u8]) -> Checked {
    Source::Bytes(table).checked()
}

/// The verdict on rows lent as numbers, and the count of pairs compared.
pub fn check_rows_counted(rows: &[i32]) -> Checked {
    Source::Numbers(rows).checked()
}

/// Whether the seven lent buffers are as long as their limits.
fn have_room(lengths: [usize; 7]) -> bool {
    let mut pairs = lengths.iter().zip(BUFFER_LENGTHS);
    pairs.all(|(&lent, least)| lent >= least)
}

/// Whether the two further lists of a traced run are as long as their limit.
fn have_trace_room(lists: [usize; 2]) -> bool {
    lists.iter().all(|&lent| lent >= TRACE_LENGTH)
}

/// The first refusal in the paper's order, or the result of the run, whose steps are told.
fn answer(source: Source, asked: Asked, tell: impl FnMut(Taken)) -> Answer {
    match result(source, asked, tell) {
        Ok(ran) => Answer::Ran(Box::new(ran)),
        Err(refusal) => Answer::Refused(refusal),
    }
}

/// The stages in the order of the refusals: buffers, table, readings, budget, then the run.
fn result(source: Source, asked: Asked, tell: impl FnMut(Taken)) -> Result<Ran, Refusal> {
    if !asked.room {
        return Err(Refusal::new(1, 0));
    }
    let program = Program::check(source.rows()?)?;
    let readings = readings_of_bytes(asked.sheet, &program.layout.readings)?;
    if asked.budget > BUDGET_LIMIT {
        return Err(Refusal::new(11, 0));
    }
    let end = run(&program, &readings, asked.choices, asked.budget, tell);
    Ok(what_a_run_leaves(program, &end))
}

/// What a run leaves: unset cells and unused places hold 0.
fn what_a_run_leaves(program: Program, end: &End) -> Ran {
    let state = &end.state;
    let mut ran = Ran {
        outcome: end.outcome,
        steps: end.steps,
        ready: end.ready,
        cells: [0; CELLS],
        marks: [0; CELLS],
        states: [0; ROWS],
        places: [0; HOST_CHANNELS],
        numbers: [0; CAPACITIES],
        counts: [0; HOST_CHANNELS],
        output_marks: [0; CAPACITIES],
        row_count: program.rows.len(),
        layout: program.layout,
    };
    for (index, cell) in state.cells.iter().enumerate() {
        ran.cells[index] = cell.unwrap_or(0);
        ran.marks[index] = u8::from(cell.is_some());
    }
    ran.states[..ran.row_count].copy_from_slice(&state.rows);
    for (index, &place) in state.places.iter().enumerate() {
        ran.places[index] = place as u32;
    }
    for (index, list) in state.lists.iter().enumerate() {
        let first = ran.layout.strips[index].first;
        for (position, message) in (first..).zip(list) {
            ran.numbers[position] = message.unwrap_or(0);
            ran.output_marks[position] = u8::from(message.is_some());
        }
        ran.counts[index] = list.len() as u32;
    }
    ran
}
