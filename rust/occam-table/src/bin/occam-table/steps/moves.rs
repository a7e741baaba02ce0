//! Which step was taken, from the states before and after it.
//!
//! A row that acts (assignment, input, output) was running and then is not: it has ended, or a
//! WHILE above it has made it idle again. A WHILE, IF or ALT that acts was running with every
//! row beneath it idle, and then it or a row beneath it has another state; only a WHILE whose
//! body ends at once leaves no trace.

use crate::kinds::{
    ALT, ASSIGNMENT, BLOCK, GUARD, IF, INPUT, OUTPUT, PAR, PROCESS, SEQ, SKIP, TO_HOST, WHILE,
};
use crate::program::Program;
use crate::values::{subscript, value};
use occam_table::{Reason, RowState, Snapshot};

/// A declaration and a number of its cells or elements; no number if it was not found.
#[derive(Clone, Copy, Debug, PartialEq, Eq)]
pub struct Named {
    pub declaration: usize,
    pub number: Option<usize>,
}

/// The row whose input took place.
#[derive(Clone, Debug, PartialEq, Eq)]
pub enum Taker {
    Input(usize),
    /// An ALT, and the options that it may have taken: one, or those that look alike.
    Alt(usize, Vec<usize>),
}

/// One step. Where a value passed, none is an absence.
#[derive(Clone, Debug, PartialEq, Eq)]
pub enum Move {
    Stopped {
        row: usize,
        reason: Reason,
    },
    Assigned {
        row: usize,
        cell: Named,
        value: Option<i32>,
    },
    Passed {
        output: usize,
        element: Named,
        taker: Taker,
        cell: Option<Named>,
        value: Option<i32>,
    },
    Read {
        taker: Taker,
        channel: usize,
        cell: Option<Named>,
        value: Option<i32>,
    },
    Wrote {
        row: usize,
        channel: usize,
        value: Option<i32>,
    },
    Tested {
        row: usize,
        held: bool,
    },
    Chose {
        row: usize,
        choice: Option<usize>,
    },
    Took {
        alt: usize,
        options: Vec<usize>,
    },
    /// No state changed: the test of one of these WHILEs, whose body ends at once.
    Unseen {
        loops: Vec<usize>,
    },
}

/// The step between two states.
pub fn between(program: &Program, before: &Snapshot, after: &Snapshot) -> Move {
    let look = Look {
        program,
        before,
        after,
    };
    look.stopped()
        .or_else(|| look.acted())
        .or_else(|| look.chose())
        .unwrap_or_else(|| Move::Unseen {
            loops: look
                .choosers()
                .filter(|&row| look.is_idle_loop(row))
                .collect(),
        })
}

/// The variables that had a value before and whose blocks a step started: their cells are unset.
/// Such a block has a step of its own beneath it, so that it is not idle again after the step.
pub fn unset_by_blocks(program: &Program, before: &Snapshot, after: &Snapshot) -> Vec<usize> {
    let idle = |state: &Snapshot, row: usize| state.states[row] == RowState::Idle;
    let starts =
        |&row: &usize| program.rows[row].kind == BLOCK && idle(before, row) && !idle(after, row);
    let blocks = (0..program.rows.len()).filter(starts);
    let variables = blocks.filter_map(|row| usize::try_from(program.rows[row].a()).ok());
    let had_value = |&variable: &usize| {
        let mut cells = before.cells[program.part(variable)].iter();
        cells.any(|cell| cell.is_some())
    };
    variables.filter(had_value).collect()
}

/// A look at two states.
struct Look<'a> {
    program: &'a Program,
    before: &'a Snapshot,
    after: &'a Snapshot,
}

impl Look<'_> {
    fn kind(&self, row: usize) -> i32 {
        self.program.rows[row].kind
    }

    fn was_running(&self, row: usize) -> bool {
        self.before.states[row] == RowState::Running
    }

    /// Whether a row's state is another one now.
    fn changed(&self, row: usize) -> bool {
        self.before.states[row] != self.after.states[row]
    }

    /// The stop of a row.
    fn stopped(&self) -> Option<Move> {
        (0..self.after.states.len()).find_map(|row| match self.after.states[row] {
            RowState::Stopped(reason) if self.changed(row) => Some(Move::Stopped { row, reason }),
            _ => None,
        })
    }

    /// The rows of a kind that acted.
    fn actors(&self, kind: i32) -> impl Iterator<Item = usize> + '_ {
        (0..self.before.states.len()).filter(move |&row| {
            self.kind(row) == kind && self.was_running(row) && self.changed(row)
        })
    }

    /// The act of an assignment, input or output, or the host read of an ALT.
    fn acted(&self) -> Option<Move> {
        if let Some(row) = self.actors(ASSIGNMENT).next() {
            return self.assigned(row);
        }
        if let Some(output) = self.actors(OUTPUT).next() {
            return self.sent(output);
        }
        let places = self.before.places.iter().zip(&self.after.places);
        let read = places.into_iter().position(|(was, is)| was != is)?;
        let channel = self.program.reading_channels().nth(read)?;
        let taker = self.taker(channel, None)?;
        let cell = self.target(&taker);
        let value = self.cell_value(cell);
        Some(Move::Read {
            taker,
            channel,
            cell,
            value,
        })
    }

    fn assigned(&self, row: usize) -> Option<Move> {
        let cell = self.named(row)?;
        let value = self.cell_value(Some(cell));
        Some(Move::Assigned { row, cell, value })
    }

    /// The act of an output: a host write, or a communication.
    fn sent(&self, output: usize) -> Option<Move> {
        let element = self.named(output)?;
        let channel = element.declaration;
        if self.program.rows[channel].b() == TO_HOST {
            let list = self
                .program
                .output_channels()
                .position(|row| row == channel)?;
            let value = self.after.lists[list].last().copied().flatten();
            return Some(Move::Wrote {
                row: output,
                channel,
                value,
            });
        }
        let taker = self.taker(channel, element.number)?;
        let cell = self.target(&taker);
        let expression = self.program.rows[output].c();
        let value = value(self.program, &self.before.cells, expression);
        Some(Move::Passed {
            output,
            element,
            taker,
            cell,
            value,
        })
    }

    /// The row that took a value from a channel: an input, or an ALT.
    fn taker(&self, channel: usize, element: Option<usize>) -> Option<Taker> {
        if let Some(input) = self.actors(INPUT).next() {
            return Some(Taker::Input(input));
        }
        let fits = |option: usize| {
            self.guarded(option).is_some_and(|guarded| {
                let is_input = self.kind(guarded) == INPUT;
                is_input
                    && self.named(guarded).is_some_and(|named| {
                        named.declaration == channel
                            && (element.is_none() || named.number == element)
                    })
            })
        };
        let taken = |alt: usize| {
            let options = self.taken_options(alt, fits);
            (!options.is_empty()).then_some(Taker::Alt(alt, options))
        };
        self.choosers()
            .filter(|&row| self.kind(row) == ALT && self.moved(row))
            .find_map(taken)
    }

    /// The options of an ALT that fit, narrowed to those with a changed row if that tells.
    fn taken_options(&self, alt: usize, fits: impl Fn(usize) -> bool) -> Vec<usize> {
        let options = self.program.list(alt).into_iter();
        let fitting: Vec<usize> = options.filter(|&option| fits(option)).collect();
        let started = |&option: &usize| {
            let process = self.program.rows[option].a() as usize;
            self.changed(process)
        };
        let seen: Vec<usize> = fitting.iter().copied().filter(started).collect();
        if seen.is_empty() {
            fitting
        } else {
            seen
        }
    }

    /// The input or SKIP that an option's guard has, if its boolean held.
    fn guarded(&self, option: usize) -> Option<usize> {
        let guard = usize::try_from(self.program.rows[option].c()).ok()?;
        if self.kind(guard) != GUARD {
            return Some(guard);
        }
        let boolean = value(
            self.program,
            &self.before.cells,
            self.program.rows[guard].a(),
        )?;
        let guarded = usize::try_from(self.program.rows[guard].b()).ok()?;
        (boolean != 0).then_some(guarded)
    }

    /// The cell that an input changes; none if it is not known which option was taken.
    fn target(&self, taker: &Taker) -> Option<Named> {
        let input = match taker {
            Taker::Input(input) => *input,
            Taker::Alt(_, options) if options.len() == 1 => self.guarded(options[0])?,
            Taker::Alt(..) => return None,
        };
        let target = usize::try_from(self.program.rows[input].c()).ok()?;
        self.named(target)
    }

    /// The cell or element that a row names by field a and subscript b, in the state before.
    fn named(&self, row: usize) -> Option<Named> {
        let row = &self.program.rows[row];
        Some(Named {
            declaration: usize::try_from(row.a()).ok()?,
            number: subscript(self.program, &self.before.cells, row.a(), row.b()),
        })
    }

    /// The value of a cell in the state after; none if it is unset or not known which.
    fn cell_value(&self, cell: Option<Named>) -> Option<i32> {
        let cell = cell?;
        let first = self.program.part(cell.declaration).start;
        self.after.cells[first + cell.number?]
    }

    /// The WHILEs, IFs and ALTs that could act: running, with every row beneath idle.
    fn choosers(&self) -> impl Iterator<Item = usize> + '_ {
        (0..self.before.states.len()).filter(|&row| {
            let beneath = || self.program.beneath(row);
            let idle = |row: usize| self.before.states[row] == RowState::Idle;
            matches!(self.kind(row), WHILE | IF | ALT)
                && self.was_running(row)
                && beneath().into_iter().all(idle)
        })
    }

    /// Whether a row or one beneath it has another state now.
    fn moved(&self, row: usize) -> bool {
        let beneath = || self.program.beneath(row);
        self.changed(row) || beneath().into_iter().any(|row| self.changed(row))
    }

    /// The test of a WHILE, the choice of an IF, or an ALT's option with a SKIP.
    fn chose(&self) -> Option<Move> {
        let row = self.choosers().find(|&row| self.moved(row))?;
        Some(match self.kind(row) {
            WHILE => Move::Tested {
                row,
                held: !self.changed(row),
            },
            IF => Move::Chose {
                row,
                choice: self.first_true(row),
            },
            _ => {
                let skips = |option: usize| {
                    self.guarded(option)
                        .is_some_and(|guarded| self.kind(guarded) == SKIP)
                };
                let options = self.taken_options(row, skips);
                Move::Took { alt: row, options }
            }
        })
    }

    /// The first choice of an IF whose boolean is true in the state before.
    fn first_true(&self, row: usize) -> Option<usize> {
        let choices = self.program.list(row).into_iter();
        choices
            .map(|choice| (choice, self.program.rows[choice].c()))
            .find(|&(_, boolean)| {
                value(self.program, &self.before.cells, boolean).is_some_and(|z| z != 0)
            })
            .map(|(choice, _)| choice)
    }

    /// Whether a row is a WHILE whose boolean holds and whose body ends at once.
    fn is_idle_loop(&self, row: usize) -> bool {
        let [boolean, body, _] = self.program.rows[row].fields;
        let held = value(self.program, &self.before.cells, boolean).is_some_and(|z| z != 0);
        let process = |row: &usize| PROCESS.contains(&self.kind(*row));
        let body = body as usize;
        let rows = std::iter::once(body).chain(self.program.beneath(body));
        self.kind(row) == WHILE
            && held
            && rows
                .filter(process)
                .all(|row| matches!(self.kind(row), SKIP | SEQ | PAR | BLOCK))
    }
}
