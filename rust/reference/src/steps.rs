//! Steps: which are ready, in row order, and what each one does.

use crate::kinds::{ASSIGNMENT, FROM_HOST, GUARD, IF, INPUT, OUTPUT, SKIP, TO_HOST, WHILE};
use crate::limits::ELEMENTS;
use crate::program::Program;
use crate::sheet::Readings;
use crate::state::State;
use crate::values::{is_true, number_named, passed, value, Reason};

/// One step that is ready, with all it needs to be taken.
#[derive(Clone, Copy, Debug, PartialEq, Eq)]
pub enum Step {
    /// An assignment, or its stop: which one, its values tell when it is taken.
    Assignment { row: usize },
    /// A WHILE test, or its stop: which one, its value tells when it is taken.
    Test { row: usize },
    /// An IF starting the process of its first true choice.
    Choice { row: usize, process: usize },
    /// An input that takes place.
    Input { row: usize, passing: Passing },
    /// A host write of a value or an absence.
    HostWrite {
        row: usize,
        list: usize,
        message: Option<i32>,
    },
    /// An ALT taking an option; the input of its guard, if any, takes place.
    Option {
        alt: usize,
        option: usize,
        passing: Option<Passing>,
    },
    /// A stop of a row that needs a value which doesn't exist.
    Stop { row: usize, reason: Reason },
}

/// An input that could now take place: where from, and into which cell.
#[derive(Clone, Copy, Debug, PartialEq, Eq)]
pub struct Passing {
    from: Source,
    cell: usize,
}

/// Where an input's value or absence comes from.
#[derive(Clone, Copy, Debug, PartialEq, Eq)]
enum Source {
    /// A waiting output and what it passes.
    Output(Offer),
    /// The next reading of this role 1 channel.
    Host { channel: usize },
}

/// A running output that would not stop, and what it passes: a value, or none for an absence.
#[derive(Clone, Copy, Debug, PartialEq, Eq)]
struct Offer {
    row: usize,
    message: Option<i32>,
}

/// A step by name: the row by which it is ordered, and the row of the output that takes part in it.
/// What it does follows from the state in which it is taken.
#[derive(Clone, Copy, Debug, PartialEq, Eq, Hash)]
pub struct StepName {
    pub row: usize,
    pub output: Option<usize>,
}

impl Step {
    /// The name of the step.
    pub fn name(&self) -> StepName {
        let passing = match *self {
            Step::Input { passing, .. } => Some(passing),
            Step::Option { passing, .. } => passing,
            _ => None,
        };
        let output = passing.and_then(|passing| match passing.from {
            Source::Output(offer) => Some(offer.row),
            Source::Host { .. } => None,
        });
        let row = self.row();
        StepName { row, output }
    }

    /// The row by which ready steps are ordered.
    pub fn row(&self) -> usize {
        match *self {
            Step::Assignment { row }
            | Step::Test { row }
            | Step::Choice { row, .. }
            | Step::Input { row, .. }
            | Step::HostWrite { row, .. }
            | Step::Stop { row, .. } => row,
            Step::Option { option, .. } => option,
        }
    }

    /// Whether an output's absence passes in this step.
    pub fn passes_absence(&self) -> bool {
        match *self {
            Step::HostWrite { message, .. } => message.is_none(),
            Step::Input { passing, .. }
            | Step::Option {
                passing: Some(passing),
                ..
            } => matches!(passing.from, Source::Output(Offer { message: None, .. })),
            _ => false,
        }
    }
}

/// For each channel element: the output that waits on it.
type WaitingOutputs = [Option<Offer>; ELEMENTS];

/// Puts the ready steps of a settled state into `ready`, ordered by row.
pub fn ready_steps(program: &Program, readings: &Readings, state: &State, ready: &mut Vec<Step>) {
    ready.clear();
    let mut look = Look {
        program,
        readings,
        state,
        waiting: [None; ELEMENTS],
    };
    look.at_outputs(ready);
    for row in state.may_step.rows() {
        look.at_row(row, ready);
    }
    ready.sort_by_key(Step::row);
}

/// A look at a settled state, to find its ready steps.
struct Look<'a> {
    program: &'a Program,
    readings: &'a Readings,
    state: &'a State,
    waiting: WaitingOutputs,
}

impl Look<'_> {
    /// Notes the waiting output of each element; puts host writes and outputs' stops into `ready`.
    fn at_outputs(&mut self, ready: &mut Vec<Step>) {
        for row in self.state.may_step.rows() {
            if self.program.rows[row].kind == OUTPUT {
                match self.output(row) {
                    Ok((element, message)) if self.role(row) == TO_HOST => {
                        debug_assert!(element < ELEMENTS);
                        ready.extend(self.host_write(row, message));
                    }
                    Ok((element, message)) => {
                        self.waiting[element] = Some(Offer { row, message });
                    }
                    Err(reason) => ready.push(Step::Stop { row, reason }),
                }
            }
        }
    }

    /// Puts the ready steps of one row that may step, and is no output, into `ready`.
    fn at_row(&self, row: usize, ready: &mut Vec<Step>) {
        match self.program.rows[row].kind {
            OUTPUT => {}
            ASSIGNMENT => ready.push(Step::Assignment { row }),
            WHILE => ready.push(Step::Test { row }),
            IF => ready.extend(stop_or(row, self.first_true_choice(row))),
            INPUT => {
                let input = self.input(row).map(|passing| {
                    let passing = passing?;
                    Some(Step::Input { row, passing })
                });
                ready.extend(stop_or(row, input));
            }
            _ => self.at_alt(row, ready),
        }
    }

    /// The start of an IF's first true choice; none after it is looked at.
    fn first_true_choice(&self, row: usize) -> Result<Option<Step>, Reason> {
        for choice in self.program.list_of(row) {
            let boolean = self.program.rows[choice].c as usize;
            if is_true(self.program, &self.state.cells, boolean)? {
                let process = self.program.process_of(choice);
                return Ok(Some(Step::Choice { row, process }));
            }
        }
        Ok(None)
    }

    /// Puts an ALT's options that can be taken into `ready`, or only its stop.
    fn at_alt(&self, alt: usize, ready: &mut Vec<Step>) {
        let before = ready.len();
        for option in self.program.list_of(alt) {
            match self.option(alt, option) {
                Ok(step) => ready.extend(step),
                Err(reason) => {
                    ready.truncate(before);
                    ready.push(Step::Stop { row: alt, reason });
                    return;
                }
            }
        }
    }

    /// The taking of one option: boolean first; if false the rest isn't looked at.
    fn option(&self, alt: usize, option: usize) -> Result<Option<Step>, Reason> {
        let mut guarded = self.program.rows[option].c as usize;
        let guard = &self.program.rows[guarded];
        if guard.kind == GUARD {
            if !is_true(self.program, &self.state.cells, guard.a as usize)? {
                return Ok(None);
            }
            guarded = guard.b as usize;
        }
        if self.program.rows[guarded].kind == SKIP {
            return Ok(Some(Step::Option {
                alt,
                option,
                passing: None,
            }));
        }
        let passing = self.input(guarded)?;
        Ok(passing.map(|passing| Step::Option {
            alt,
            option,
            passing: Some(passing),
        }))
    }

    /// What an input could now take: channel subscript, then target subscript.
    fn input(&self, row: usize) -> Result<Option<Passing>, Reason> {
        let element = number_named(self.program, &self.state.cells, row)?;
        let target = self.program.rows[row].c as usize;
        let cell = number_named(self.program, &self.state.cells, target)?;
        let from = if self.role(row) == FROM_HOST {
            let channel = self.host_number(row);
            let left = self.state.places[channel] < self.readings.count();
            left.then_some(Source::Host { channel })
        } else {
            self.waiting[element].map(Source::Output)
        };
        Ok(from.map(|from| Passing { from, cell }))
    }

    /// The element of an output and what it passes: channel subscript, then expression.
    fn output(&self, row: usize) -> Result<(usize, Option<i32>), Reason> {
        let cells = &self.state.cells;
        let element = number_named(self.program, cells, row)?;
        let message = passed(self.program, cells, self.program.rows[row].c as usize)?;
        Ok((element, message))
    }

    /// A host write, if capacity is left.
    fn host_write(&self, row: usize, message: Option<i32>) -> Option<Step> {
        let list = self.host_number(row);
        let left = self.state.lists[list].len() < self.program.layout.strips[list].length;
        left.then_some(Step::HostWrite { row, list, message })
    }

    /// The role of the channel that an input or output names.
    fn role(&self, row: usize) -> i32 {
        self.program.rows[self.program.rows[row].a as usize].b
    }

    /// The number of the host channel that an input or output names, among those of its role.
    fn host_number(&self, row: usize) -> usize {
        self.program.layout.host_number[self.program.rows[row].a as usize]
    }
}

/// The step found, if any, or the stop of this row.
fn stop_or(row: usize, found: Result<Option<Step>, Reason>) -> Option<Step> {
    found.unwrap_or_else(|reason| Some(Step::Stop { row, reason }))
}

/// Takes a ready step and settles.
pub fn take_step(program: &Program, readings: &Readings, state: &mut State, step: Step) {
    match step {
        Step::Assignment { row } => match assigned(program, state, row) {
            Ok((cell, value)) => {
                state.cells[cell] = Some(value);
                state.end_process(program, row);
            }
            Err(reason) => state.stop_process(row, reason),
        },
        Step::Test { row } => match is_true(program, &state.cells, program.rows[row].a as usize) {
            Ok(true) => {
                state.has_chosen(row);
                state.start_process(program, program.process_within(row));
            }
            Ok(false) => state.end_process(program, row),
            Err(reason) => state.stop_process(row, reason),
        },
        Step::Choice { row, process } => {
            state.has_chosen(row);
            state.start_process(program, process);
        }
        Step::Input { row, passing } => {
            pass(program, readings, state, passing);
            state.end_process(program, row);
        }
        Step::HostWrite { row, list, message } => {
            state.lists[list].push(message);
            state.end_process(program, row);
        }
        Step::Option {
            alt,
            option,
            passing,
        } => {
            if let Some(passing) = passing {
                pass(program, readings, state, passing);
            }
            state.has_chosen(alt);
            state.start_process(program, program.process_of(option));
        }
        Step::Stop { row, reason } => state.stop_process(row, reason),
    }
}

/// The cell and value of an assignment: subscript before expression.
fn assigned(program: &Program, state: &State, row: usize) -> Result<(usize, i32), Reason> {
    let cell = number_named(program, &state.cells, row)?;
    let value = value(program, &state.cells, program.rows[row].c as usize)?;
    Ok((cell, value))
}

/// A value or an absence passes: an output ends, or a reading is taken; an absence unsets the cell.
fn pass(program: &Program, readings: &Readings, state: &mut State, passing: Passing) {
    match passing.from {
        Source::Output(offer) => {
            state.cells[passing.cell] = offer.message;
            state.end_process(program, offer.row);
        }
        Source::Host { channel } => {
            state.cells[passing.cell] = readings.reading(state.places[channel], channel);
            state.places[channel] += 1;
        }
    }
}
