//! The machine: buffers owned once and lent to every run.

use crate::answers::{self, Checked, Refusal, Verdict};
use crate::buffers::{Buffers, Trace, HOST_CHANNELS, ROWS};
use crate::calls;
use crate::run::Run;
use crate::sizes::Sizes;
use crate::traced::Traced;

/// The verdict on a table's bytes.
///
/// ```
/// use occam_table::check_table;
///
/// assert!(check_table(b"kind,a,b,c\n21,0,0,0\n").is_ok());
/// let refusal = check_table(b"kind,a,b,c\n21,0,0\n").unwrap_err();
/// assert_eq!((refusal.number, refusal.place), (2, 2), "line 2 has three numbers");
/// ```
pub fn check_table(table: &[u8]) -> Verdict {
    answers::verdict(calls::check_table(table))
}

/// The verdict on rows lent as numbers, four to each.
///
/// ```
/// use occam_table::check_rows;
///
/// assert!(check_rows(&[21, 0, 0, 0]).is_ok());
/// let refusal = check_rows(&[21, 0, 0, 0, 21]).unwrap_err();
/// assert_eq!((refusal.number, refusal.place), (3, 1), "one whole row");
/// ```
pub fn check_rows(rows: &[i32]) -> Verdict {
    answers::verdict(calls::check_rows(rows))
}

/// The verdict on a table's bytes, and the count of pairs of components compared.
///
/// ```
/// use occam_table::{check_table_counted, Checked, Refusal};
///
/// // PAR(SKIP, SKIP, SKIP): three pairs in each of the three sorts.
/// let table = b"kind,a,b,c\n31,1,0,0\n40,2,3,0\n21,0,0,0\n40,4,5,0\n21,0,0,0\n40,6,-1,0\n21,0,0,0\n";
/// let accepted = Checked { verdict: Ok(()), pairs: 9 };
/// assert_eq!(check_table_counted(table), accepted);
/// assert_eq!(accepted.to_string(), "accepted,9");
///
/// // Refused before a pair is compared.
/// let refusal = Refusal { number: 2, place: 1 };
/// let refused = Checked { verdict: Err(refusal), pairs: 0 };
/// assert_eq!(check_table_counted(b""), refused);
/// ```
pub fn check_table_counted(table: &[u8]) -> Checked {
    answers::checked(calls::check_table_counted(table))
}

/// The verdict on rows lent as numbers, four to each, and the count of pairs of components compared.
///
/// ```
/// use occam_table::{check_rows_counted, Checked, Refusal};
///
/// // c of one element; PAR(c ! 1, SKIP, c ! 2)
/// let rows = [
///     [2, 1, 0, 0], [31, 2, 0, 0],
///     [40, 3, 6, 0], [24, 0, 4, 5], [10, 0, 0, 0], [10, 1, 0, 0],
///     [40, 7, 8, 0], [21, 0, 0, 0],
///     [40, 9, -1, 0], [24, 0, 10, 11], [10, 0, 0, 0], [10, 2, 0, 0],
/// ];
/// // Three pairs for cells, three for inputs; of those for outputs the second clashes, and the
/// // search ends.
/// let refusal = Refusal { number: 9, place: 1 };
/// let refused = Checked { verdict: Err(refusal), pairs: 3 + 3 + 2 };
/// assert_eq!(check_rows_counted(rows.as_flattened()), refused);
/// assert_eq!(refused.to_string(), "refused,9,1,8");
/// ```
pub fn check_rows_counted(rows: &[i32]) -> Checked {
    answers::checked(calls::check_rows_counted(rows))
}

/// The rows of a table's bytes; none if the bytes are refused (2, 3) or hold no row.
///
/// ```
/// use occam_table::read_rows;
///
/// assert_eq!(read_rows(b"kind,a,b,c\n21,0,0,0\n"), Some(vec![[21, 0, 0, 0]]));
/// assert_eq!(read_rows(b"21,0,0,0\n"), None);
/// ```
pub fn read_rows(table: &[u8]) -> Option<Vec<[i32; 4]>> {
    let mut numbers = vec![0; 4 * ROWS];
    let written = calls::read_rows(table, &mut numbers) as usize;
    let rows = numbers[..written].chunks_exact(4);
    (written != 0).then(|| rows.map(|row| [row[0], row[1], row[2], row[3]]).collect())
}

/// The part of the output numbers that belongs to one channel to the host; their marks stand at
/// the same positions of the output marks.
#[derive(Clone, Copy, Debug, Default, PartialEq, Eq)]
pub struct Strip {
    /// The position of its first number.
    pub begin: usize,
    /// How many numbers it can hold.
    pub capacity: usize,
}

impl Strip {
    /// The strip of a packed one: its begin, and 65,536 times its capacity.
    fn of(packed: u64) -> Strip {
        Strip {
            begin: (packed & 0xFFFF) as usize,
            capacity: (packed >> 16) as usize,
        }
    }
}

/// The strip of a channel to the host of an accepted table; `channel` counts those of role 2
/// from 0, in row order.
///
/// ```
/// use occam_table::{strip, Strip};
///
/// let rows = [[2, 1, 2, 4], [2, 1, 2, 9], [21, 0, 0, 0]];
/// let second = Strip { begin: 4, capacity: 9 };
/// assert_eq!(strip(rows.as_flattened(), 1), second);
/// ```
pub fn strip(rows: &[i32], channel: usize) -> Strip {
    Strip::of(calls::strip(rows, channel))
}

/// Runs tables. It owns the buffers that runs leave their state in, so that a run allocates
/// nothing; a [`Run`] is a look at them until the next run. The first traced run allocates the two
/// lists of its steps, 256 KiB.
///
/// ```
/// use occam_table::{Machine, Outcome, BUDGET};
///
/// // WHILE 1 SKIP
/// let rows = [[33, 1, 2, 0], [10, 1, 0, 0], [21, 0, 0, 0]];
/// let mut machine = Machine::new();
/// for budget in [0, 7, BUDGET] {
///     let run = machine.run_rows(rows.as_flattened(), b"\n", &[], budget)?;
///     assert_eq!((run.outcome, run.steps), (Outcome::Spent, budget));
/// }
/// let refusal = machine.run_rows(rows.as_flattened(), b"\n", &[], BUDGET + 1).unwrap_err();
/// assert_eq!(refusal.number, 11);
/// # Ok::<(), occam_table::Refusal>(())
/// ```
pub struct Machine {
    held: Box<Held>,
    trace: Option<Trace>,
}

/// What a machine owns.
struct Held {
    buffers: Buffers,
    rows: [i32; 4 * ROWS],
    strips: [Strip; HOST_CHANNELS],
}

impl Default for Machine {
    fn default() -> Machine {
        Machine::new()
    }
}

impl Machine {
    /// A machine with its buffers, which no run has used yet.
    pub fn new() -> Machine {
        Machine {
            held: Box::new(Held {
                buffers: Buffers::default(),
                rows: [0; 4 * ROWS],
                strips: [Strip::default(); HOST_CHANNELS],
            }),
            trace: None,
        }
    }

    /// Runs a table's bytes on a sheet's bytes.
    ///
    /// The choice for a step is divided by the number of ready steps, and the remainder picks;
    /// when the list is used up, 0 is meant. A budget above [`BUDGET`](crate::BUDGET) is refused.
    pub fn run_table(
        &mut self,
        table: &[u8],
        sheet: &[u8],
        choices: &[u16],
        budget: u32,
    ) -> Result<Run<'_>, Refusal> {
        let lent = self.held.buffers.lend();
        let packed = calls::run_table(table, sheet, choices, budget, lent);
        self.held.run_of_table(packed, table)
    }

    /// Runs an occam text on a sheet's bytes. The names of the sheet's first line are the rows of
    /// the channels, as for a table: a text's declarations are its first rows, in the order of their
    /// lines.
    ///
    /// ```
    /// use occam_table::{Machine, Outcome, BUDGET};
    ///
    /// let text = b"HOSTIN lime:\nHOSTOUT 4 panel:\nINT x:\nSEQ\n  lime ? x\n  panel ! x + 5\n";
    /// let mut machine = Machine::new();
    /// let run = machine.run_text(text, b"0\n120\n", &[], BUDGET)?;
    /// assert_eq!((run.outcome, run.steps), (Outcome::Ended, 2));
    /// assert_eq!(run.list(0), [Some(125)]);
    /// # Ok::<(), occam_table::Refusal>(())
    /// ```
    pub fn run_text(
        &mut self,
        text: &[u8],
        sheet: &[u8],
        choices: &[u16],
        budget: u32,
    ) -> Result<Run<'_>, Refusal> {
        let lent = self.held.buffers.lend();
        let packed = calls::run_text(text, sheet, choices, budget, lent);
        self.held.run_of_text(packed, text)
    }

    /// Runs rows lent as numbers, four to each, on a sheet's bytes.
    pub fn run_rows(
        &mut self,
        rows: &[i32],
        sheet: &[u8],
        choices: &[u16],
        budget: u32,
    ) -> Result<Run<'_>, Refusal> {
        let lent = self.held.buffers.lend();
        let packed = calls::run_rows(rows, sheet, choices, budget, lent);
        self.held.run_of_rows(packed, rows)
    }

    /// Runs a table's bytes on a sheet's bytes, and keeps what each step shows.
    pub fn run_table_traced(
        &mut self,
        table: &[u8],
        sheet: &[u8],
        choices: &[u16],
        budget: u32,
    ) -> Result<Traced<'_>, Refusal> {
        let trace = self.trace.get_or_insert_default();
        let (lent, lists) = (self.held.buffers.lend(), trace.lend());
        let packed = calls::run_table_traced(table, sheet, choices, budget, lent, lists);
        let run = self.held.run_of_table(packed, table)?;
        Ok(Traced::new(run, trace))
    }

    /// Runs rows lent as numbers, four to each, and keeps what each step shows.
    pub fn run_rows_traced(
        &mut self,
        rows: &[i32],
        sheet: &[u8],
        choices: &[u16],
        budget: u32,
    ) -> Result<Traced<'_>, Refusal> {
        let trace = self.trace.get_or_insert_default();
        let (lent, lists) = (self.held.buffers.lend(), trace.lend());
        let packed = calls::run_rows_traced(rows, sheet, choices, budget, lent, lists);
        let run = self.held.run_of_rows(packed, rows)?;
        Ok(Traced::new(run, trace))
    }

    /// The buffers as the last run left them; a refused call changes nothing in them.
    pub fn buffers(&self) -> &Buffers {
        &self.held.buffers
    }
}

impl Held {
    /// The run of a packed answer to a table's bytes, or its refusal.
    fn run_of_table(&mut self, packed: u64, table: &[u8]) -> Result<Run<'_>, Refusal> {
        let told = answers::answer(packed)?;
        let written = calls::read_rows(table, &mut self.rows) as usize;
        let sizes = note_strips(&self.rows[..written], &mut self.strips);
        Ok(Run::new(told, &self.buffers, sizes, &self.strips))
    }

    /// The run of a packed answer to a text, or its refusal.
    fn run_of_text(&mut self, packed: u64, text: &[u8]) -> Result<Run<'_>, Refusal> {
        let told = answers::answer(packed)?;
        let count = answers::rows_read(calls::read_text(text, &mut self.rows))?;
        let sizes = note_strips(&self.rows[..4 * count], &mut self.strips);
        Ok(Run::new(told, &self.buffers, sizes, &self.strips))
    }

    /// The run of a packed answer to rows lent as numbers, or its refusal.
    fn run_of_rows(&mut self, packed: u64, rows: &[i32]) -> Result<Run<'_>, Refusal> {
        let told = answers::answer(packed)?;
        let sizes = note_strips(rows, &mut self.strips);
        Ok(Run::new(told, &self.buffers, sizes, &self.strips))
    }
}

/// Notes the strip of each output channel of an accepted table, and tells its sizes.
fn note_strips(rows: &[i32], strips: &mut [Strip; HOST_CHANNELS]) -> Sizes {
    let sizes = Sizes::of(rows);
    for (channel, noted) in strips[..sizes.outputs].iter_mut().enumerate() {
        *noted = strip(rows, channel);
    }
    sizes
}
