//! The state of a run, and settling, which takes no step.

use crate::kinds::{ALT, ASSIGNMENT, BLOCK, IF, INPUT, OUTPUT, PAR, SEQ, SKIP, WHILE};
use crate::limits::Part;
use crate::program::{Above, Program};
use crate::table::ROWS;
use crate::values::Reason;

/// Row state of a process that is not started, and of every other row.
pub const IDLE: u8 = 0;
/// Row state of a started process that has not ended.
pub const RUNNING: u8 = 1;
/// Row state of a process that has ended.
pub const ENDED: u8 = 2;
/// Row state of a stopped process: this plus the reason.
pub const STOPPED: u8 = 10;

/// A set of rows, gone through in row order.
#[derive(Clone, Debug, PartialEq, Eq, Hash)]
pub struct RowSet {
    words: [u64; ROWS / 64],
}

impl RowSet {
    /// The set of no rows.
    fn empty() -> RowSet {
        RowSet {
            words: [0; ROWS / 64],
        }
    }

    /// Adds a row.
    fn add(&mut self, row: usize) {
        self.words[row / 64] |= 1 << (row % 64);
    }

    /// Takes a row out.
    fn remove(&mut self, row: usize) {
        self.words[row / 64] &= !(1 << (row % 64));
    }

    /// The rows, lowest first.
    pub fn rows(&self) -> impl Iterator<Item = usize> + '_ {
        self.words.iter().enumerate().flat_map(|(number, &word)| {
            let mut left = word;
            std::iter::from_fn(move || {
                let lowest = (left != 0).then(|| left.trailing_zeros() as usize)?;
                left &= left - 1;
                Some(number * 64 + lowest)
            })
        })
    }
}

/// What a run has come to: cells, row states, places in the readings and output lists.
#[derive(Clone, Debug, PartialEq, Eq, Hash)]
pub struct State {
    /// Each cell: unset or a number.
    pub cells: Vec<Option<i32>>,
    /// Each row: idle, running, ended, or stopped.
    pub rows: Vec<u8>,
    /// For each role 1 channel: how many values have been taken from it.
    pub places: Vec<usize>,
    /// For each role 2 channel: what its host writes passed, in their order; none for an absence.
    pub lists: Vec<Vec<Option<i32>>>,
    /// The rows that may have a step: running actions, and running IFs, WHILEs and ALTs
    /// with every row beneath them idle. It follows from the row states.
    pub may_step: RowSet,
    /// For each running PAR: how many members have not ended. It follows from the row states.
    members_left: Vec<usize>,
}

/// A change of one process that settling has still to follow up.
enum Change {
    Started(usize),
    Ended(usize),
}

impl State {
    /// The state before the first step: the root started and settled.
    pub fn start(program: &Program) -> State {
        let layout = &program.layout;
        let cells = layout.variables.iter().map(|part| part.length).sum();
        let mut state = State {
            cells: vec![None; cells],
            rows: vec![IDLE; program.rows.len()],
            places: vec![0; layout.readings.len()],
            lists: vec![Vec::new(); layout.strips.len()],
            may_step: RowSet::empty(),
            members_left: vec![0; program.rows.len()],
        };
        state.start_process(program, program.root);
        state
    }

    /// Starts a process and settles.
    pub fn start_process(&mut self, program: &Program, row: usize) {
        self.settle(program, Change::Started(row));
    }

    /// Ends a running process and settles.
    pub fn end_process(&mut self, program: &Program, row: usize) {
        self.settle(program, Change::Ended(row));
    }

    /// Makes a running row stopped, for a reason.
    pub fn stop_process(&mut self, row: usize, reason: Reason) {
        self.rows[row] = STOPPED + reason.number();
        self.may_step.remove(row);
    }

    /// Notes that an IF, WHILE or ALT has a started process beneath it, so that it has no step.
    pub fn has_chosen(&mut self, row: usize) {
        self.may_step.remove(row);
    }

    /// Whether some row is stopped.
    pub fn has_stopped_row(&self) -> bool {
        self.rows.iter().any(|&state| state > STOPPED)
    }

    /// Follows up a change and all that come from it, until nothing settles any more.
    fn settle(&mut self, program: &Program, change: Change) {
        let mut pending = vec![change];
        while let Some(change) = pending.pop() {
            match change {
                Change::Started(row) => self.settle_started(program, row, &mut pending),
                Change::Ended(row) => self.settle_ended(program, row, &mut pending),
            }
        }
    }

    /// A started process is running; a SKIP ends, a SEQ starts its first member, a PAR starts all,
    /// a block unsets the cells of its variable and starts its process.
    fn settle_started(&mut self, program: &Program, row: usize, pending: &mut Vec<Change>) {
        self.rows[row] = RUNNING;
        match program.rows[row].kind {
            SKIP => pending.push(Change::Ended(row)),
            SEQ | PAR if program.member_count(row) == 0 => pending.push(Change::Ended(row)),
            SEQ => {
                let first = program.list_of(row).take(1);
                pending.extend(first.map(|member| Change::Started(program.process_of(member))));
            }
            PAR => {
                self.members_left[row] = program.member_count(row);
                let all = program.list_of(row);
                pending.extend(all.map(|member| Change::Started(program.process_of(member))));
            }
            BLOCK => {
                self.unset_cells(program.part_named_by(row));
                pending.push(Change::Started(program.process_within(row)));
            }
            ASSIGNMENT | INPUT | OUTPUT | IF | WHILE | ALT => self.may_step.add(row),
            _ => {}
        }
    }

    /// "Starting it unsets all cells of the variable".
    fn unset_cells(&mut self, variable: Part) {
        self.cells[variable.positions()].fill(None);
    }

    /// An ended process lets what is above it go on: the next member, the end, or the next test.
    fn settle_ended(&mut self, program: &Program, row: usize, pending: &mut Vec<Change>) {
        self.rows[row] = ENDED;
        self.may_step.remove(row);
        match program.above(row) {
            Above::Nothing => {}
            Above::Seq {
                next: Some(next), ..
            } => pending.push(Change::Started(next)),
            Above::Seq { seq, next: None } => pending.push(Change::Ended(seq)),
            Above::Par { par } => {
                self.members_left[par] -= 1;
                if self.members_left[par] == 0 {
                    pending.push(Change::Ended(par));
                }
            }
            Above::Chooser { row } | Above::Block { row } => pending.push(Change::Ended(row)),
            Above::While { row } => {
                for &beneath in program.processes_beneath(row) {
                    self.rows[beneath] = IDLE;
                }
                self.may_step.add(row);
            }
        }
    }
}
