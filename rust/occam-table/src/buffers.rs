//! The seven buffers that a run leaves its state in, and the two lists of a traced run.

/// Most rows of a table.
pub const ROWS: usize = 1_024;
/// Most cells of all variables together.
pub const CELLS: usize = 256;
/// Most channels of role 1, and of role 2.
pub const HOST_CHANNELS: usize = 8;
/// Most positions in all strips together.
pub const CAPACITIES: usize = 1_024;
/// Greatest budget.
pub const BUDGET: u32 = 65_536;

/// Least length of each of the two further lists of a traced run: one number for each step that a
/// budget allows.
pub const TRACE: usize = BUDGET as usize;

/// Seven lent buffers. Each has to be at least as long as its limit; a shorter one is refusal 1.
///
/// ```
/// use occam_table::{calls, Buffers};
///
/// let mut buffers = Buffers::default();
/// let mut lent = buffers.lend();
/// lent.output_marks = &mut lent.output_marks[..1_023];
/// let answer = calls::run_rows(&[21, 0, 0, 0], b"\n", &[], 0, lent);
/// assert_eq!(answer, 1, "refusal 1 at place 0");
/// ```
pub struct Lent<'b> {
    /// Each cell's value, 0 if it is unset: 256.
    pub cells: &'b mut [i32],
    /// Each cell's set mark, 1 set, 0 unset: 256.
    pub marks: &'b mut [u8],
    /// Each row's state: 1,024.
    pub states: &'b mut [u8],
    /// Each role 1 channel's place in the readings: 8.
    pub places: &'b mut [u32],
    /// The strips of the role 2 channels, each following the one before it, 0 for an absence:
    /// 1,024.
    pub numbers: &'b mut [i32],
    /// How long each role 2 channel's list is: 8.
    pub counts: &'b mut [u32],
    /// Beside each number of the strips its set mark, 1 a value, 0 an absence or unused: 1,024.
    pub output_marks: &'b mut [u8],
}

/// Two further lists, lent to a traced run. Each has to be at least [`TRACE`] long; a shorter one is
/// refusal 1. A run puts 0 past its steps, up to that limit, and touches nothing past it.
///
/// ```
/// use occam_table::{calls, Buffers, LentTrace, TRACE};
///
/// let (mut ready, mut taken) = (vec![7; TRACE], vec![7; TRACE - 1]);
/// let mut buffers = Buffers::default();
/// let trace = LentTrace { ready: &mut ready, taken: &mut taken };
/// let answer = calls::run_rows_traced(&[21, 0, 0, 0], b"\n", &[], 0, buffers.lend(), trace);
/// assert_eq!(answer, 1, "refusal 1 at place 0");
/// assert_eq!(ready[0], 7, "a refused call writes to no lent list");
/// ```
pub struct LentTrace<'b> {
    /// For each step how many were ready, this one included: 65,536.
    pub ready: &'b mut [u16],
    /// For each step the row that orders the one taken: 65,536.
    pub taken: &'b mut [u16],
}

/// Seven buffers, each exactly as long as its limit.
#[derive(Clone, Debug, PartialEq, Eq)]
pub struct Buffers {
    /// Each cell's value, 0 if it is unset.
    pub cells: [i32; CELLS],
    /// Each cell's set mark: 1 set, 0 unset.
    pub marks: [u8; CELLS],
    /// Each row's state.
    pub states: [u8; ROWS],
    /// Each role 1 channel's place in the readings.
    pub places: [u32; HOST_CHANNELS],
    /// The strips of the role 2 channels, each following the one before it; 0 for an absence.
    pub numbers: [i32; CAPACITIES],
    /// How long each role 2 channel's list is.
    pub counts: [u32; HOST_CHANNELS],
    /// Beside each number of the strips its set mark: 1 a value, 0 an absence or unused.
    pub output_marks: [u8; CAPACITIES],
}

impl Default for Buffers {
    fn default() -> Buffers {
        Buffers {
            cells: [0; CELLS],
            marks: [0; CELLS],
            states: [0; ROWS],
            places: [0; HOST_CHANNELS],
            numbers: [0; CAPACITIES],
            counts: [0; HOST_CHANNELS],
            output_marks: [0; CAPACITIES],
        }
    }
}

impl Buffers {
    /// Lends all seven.
    pub fn lend(&mut self) -> Lent<'_> {
        Lent {
            cells: &mut self.cells,
            marks: &mut self.marks,
            states: &mut self.states,
            places: &mut self.places,
            numbers: &mut self.numbers,
            counts: &mut self.counts,
            output_marks: &mut self.output_marks,
        }
    }
}

/// The two lists of a traced run, each exactly as long as its limit.
#[derive(Clone, Debug, PartialEq, Eq)]
pub(crate) struct Trace {
    pub ready: Vec<u16>,
    pub taken: Vec<u16>,
}

impl Default for Trace {
    fn default() -> Trace {
        Trace {
            ready: vec![0; TRACE],
            taken: vec![0; TRACE],
        }
    }
}

impl Trace {
    /// Lends both.
    pub fn lend(&mut self) -> LentTrace<'_> {
        LentTrace {
            ready: &mut self.ready,
            taken: &mut self.taken,
        }
    }
}
