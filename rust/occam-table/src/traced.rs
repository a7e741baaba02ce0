//! A traced run: what the panel shows of each step.

use crate::buffers::Trace;
use crate::run::Run;

/// One step of a traced run.
#[derive(Clone, Copy, Debug, PartialEq, Eq, Hash)]
pub struct Step {
    /// How many steps were ready, this one included.
    pub ready: u32,
    /// The row that orders this one: the action, test, IF or stop itself, the input of a
    /// communication, the option of an ALT.
    pub row: usize,
}

/// A run with each of its steps, a look at what a machine holds until its next run.
///
/// ```
/// use occam_table::{Machine, Step, BUDGET};
///
/// // PAR of v[0] := 1 and v[1] := 2; the second is taken first
/// let rows = [
///     [1, 2, 0, 0], [31, 2, 0, 0], [40, 4, 3, 0], [40, 7, -1, 0], [22, 0, 5, 6],
///     [10, 0, 0, 0], [10, 1, 0, 0], [22, 0, 8, 9], [10, 1, 0, 0], [10, 2, 0, 0],
/// ];
/// let mut machine = Machine::new();
/// let traced = machine.run_rows_traced(rows.as_flattened(), b"\n", &[1], BUDGET)?;
/// let steps: Vec<Step> = traced.steps().collect();
/// assert_eq!(steps, [Step { ready: 2, row: 7 }, Step { ready: 1, row: 4 }]);
/// assert_eq!((traced.run.steps, traced.run.ready), (2, 0));
/// # Ok::<(), occam_table::Refusal>(())
/// ```
#[derive(Clone, Copy, Debug)]
pub struct Traced<'m> {
    /// The run.
    pub run: Run<'m>,
    ready: &'m [u16],
    taken: &'m [u16],
}

impl<'m> Traced<'m> {
    /// A run with the lists that it left.
    pub(crate) fn new(run: Run<'m>, trace: &'m Trace) -> Traced<'m> {
        let steps = run.steps as usize;
        Traced {
            run,
            ready: &trace.ready[..steps],
            taken: &trace.taken[..steps],
        }
    }

    /// The steps, in order.
    pub fn steps(&self) -> impl Iterator<Item = Step> + use<'m> {
        let pairs = self.ready.iter().zip(self.taken);
        pairs.map(|(&ready, &row)| Step {
            ready: u32::from(ready),
            row: usize::from(row),
        })
    }
}
