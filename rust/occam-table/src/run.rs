//! A run: its outcome and steps, how many are ready after it, and the state that it left.

use crate::answers::{Outcome, RowState, Told};
use crate::buffers::Buffers;
use crate::machine::Strip;
use crate::sizes::Sizes;

/// A run: its outcome and steps, how many are ready after it, and a look at the state that it
/// left in a machine's buffers.
///
/// ```
/// use occam_table::Machine;
///
/// // PAR of v[0] := 1 and v[1] := 2
/// let rows = [
///     [1, 2, 0, 0], [31, 2, 0, 0], [40, 4, 3, 0], [40, 7, -1, 0], [22, 0, 5, 6],
///     [10, 0, 0, 0], [10, 1, 0, 0], [22, 0, 8, 9], [10, 1, 0, 0], [10, 2, 0, 0],
/// ];
/// let mut machine = Machine::new();
/// for (budget, ready) in [(0, 2), (1, 1), (2, 0)] {
///     let run = machine.run_rows(rows.as_flattened(), b"\n", &[], budget)?;
///     assert_eq!(run.ready, ready);
/// }
/// # Ok::<(), occam_table::Refusal>(())
/// ```
///
/// Cells, rows, channels from the host and channels to the host are each counted from 0, in row
/// order. A number past what the table declares is a caller's mistake and panics.
#[derive(Clone, Copy, Debug)]
pub struct Run<'m> {
    /// How it came to its end.
    pub outcome: Outcome,
    /// How many steps it took.
    pub steps: u32,
    /// How many steps are ready in the state that it left: 0 at rest, above 0 when spent.
    pub ready: u32,
    buffers: &'m Buffers,
    sizes: Sizes,
    strips: &'m [Strip],
}

impl<'m> Run<'m> {
    /// The run of this answer, with the buffers that it left.
    pub(crate) fn new(
        told: Told,
        buffers: &'m Buffers,
        sizes: Sizes,
        strips: &'m [Strip],
    ) -> Run<'m> {
        Run {
            outcome: told.outcome,
            steps: told.steps,
            ready: told.ready,
            buffers,
            sizes,
            strips: &strips[..sizes.outputs],
        }
    }

    /// The value of a cell; none if it is unset.
    pub fn cell(&self, number: usize) -> Option<i32> {
        let set = self.buffers.marks[..self.sizes.cells][number] != 0;
        set.then(|| self.buffers.cells[number])
    }

    /// The values of all cells; none for each that is unset.
    pub fn cells(&self) -> impl Iterator<Item = Option<i32>> + use<'m> {
        let run = *self;
        (0..run.sizes.cells).map(move |number| run.cell(number))
    }

    /// The state of a row.
    pub fn state(&self, row: usize) -> RowState {
        RowState::of(self.buffers.states[..self.sizes.rows][row])
    }

    /// The states of all rows.
    pub fn states(&self) -> impl Iterator<Item = RowState> + use<'m> {
        let states = &self.buffers.states[..self.sizes.rows];
        states.iter().map(|&number| RowState::of(number))
    }

    /// For each channel from the host: how many values have been taken, absent ones included.
    pub fn places(&self) -> &'m [u32] {
        &self.buffers.places[..self.sizes.readings]
    }

    /// What was written on a channel to the host, in order; none for each absence.
    ///
    /// ```
    /// use occam_table::{Machine, BUDGET};
    ///
    /// // b ! x, then b ! 5; x is unset
    /// let rows = [
    ///     [2, 1, 2, 2], [1, 1, 0, 0], [30, 3, 0, 0], [40, 4, 8, 0], [24, 0, 5, 6], [10, 0, 0, 0],
    ///     [11, 1, 7, 0], [10, 0, 0, 0], [40, 9, -1, 0], [24, 0, 10, 11], [10, 0, 0, 0], [10, 5, 0, 0],
    /// ];
    /// let mut machine = Machine::new();
    /// let run = machine.run_rows(rows.as_flattened(), b"\n", &[], BUDGET)?;
    /// assert_eq!(run.list(0), [None, Some(5)]);
    /// # Ok::<(), occam_table::Refusal>(())
    /// ```
    pub fn list(&self, channel: usize) -> Vec<Option<i32>> {
        let begin = self.strips[channel].begin;
        let written = begin..begin + self.buffers.counts[channel] as usize;
        let numbers = self.buffers.numbers[written.clone()].iter();
        let marked = numbers.zip(&self.buffers.output_marks[written]);
        let message = |(&number, &mark): (&i32, &u8)| (mark != 0).then_some(number);
        marked.map(message).collect()
    }

    /// What was written on each channel to the host, in order; none for each absence.
    pub fn lists(&self) -> impl Iterator<Item = Vec<Option<i32>>> + use<'m> {
        let run = *self;
        (0..run.strips.len()).map(move |channel| run.list(channel))
    }

    /// A copy that outlives the machine's next run.
    pub fn snapshot(&self) -> Snapshot {
        Snapshot {
            outcome: self.outcome,
            steps: self.steps,
            ready: self.ready,
            cells: self.cells().collect(),
            states: self.states().collect(),
            places: self.places().to_vec(),
            lists: self.lists().collect(),
        }
    }
}

/// A copy of a run, to keep and to compare.
///
/// ```
/// use occam_table::{Machine, RowState};
///
/// // x[1] := 7 in an array of two cells
/// let rows = [[1, 2, 0, 0], [22, 0, 2, 3], [10, 1, 0, 0], [10, 7, 0, 0]];
/// let mut machine = Machine::new();
/// let before = machine.run_rows(rows.as_flattened(), b"\n", &[], 0)?.snapshot();
/// let after = machine.run_rows(rows.as_flattened(), b"\n", &[], 1)?.snapshot();
/// assert_eq!((before.cells[1], after.cells[1]), (None, Some(7)));
/// assert_eq!(after.cells[0], None);
/// assert_eq!((before.states[1], after.states[1]), (RowState::Running, RowState::Ended));
/// # Ok::<(), occam_table::Refusal>(())
/// ```
#[derive(Clone, Debug, PartialEq, Eq, Hash)]
pub struct Snapshot {
    /// How the run came to its end.
    pub outcome: Outcome,
    /// How many steps it took.
    pub steps: u32,
    /// How many steps are ready in the state that it left.
    pub ready: u32,
    /// Each cell: none if it is unset.
    pub cells: Vec<Option<i32>>,
    /// Each row's state.
    pub states: Vec<RowState>,
    /// For each channel from the host: how many values have been taken.
    pub places: Vec<u32>,
    /// What was written on each channel to the host: none for each absence.
    pub lists: Vec<Vec<Option<i32>>>,
}
