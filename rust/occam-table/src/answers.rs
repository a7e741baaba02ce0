//! Answers of the library as Rust types: verdict, refusal, outcome, row state.

use std::fmt;

/// One of the numbered refusals of document 01, or 12 to 14 of document 02, with its place.
///
/// The place is a line of the table (2), a line of the sheet (10), a line of the text (12, 13), a
/// row (4 to 9 and 14), the count of rows (3, and 5 if there is no root), or 0.
#[derive(Clone, Copy, Debug, PartialEq, Eq, Hash)]
pub struct Refusal {
    /// The refusal's number: 1 to 14.
    pub number: u8,
    /// The line or row at fault.
    pub place: u32,
}

impl fmt::Display for Refusal {
    /// The sheet runner's line for a refusal, without the line feed.
    fn fmt(&self, out: &mut fmt::Formatter<'_>) -> fmt::Result {
        write!(out, "refused,{},{},0", self.number, self.place)
    }
}

impl std::error::Error for Refusal {}

/// The verdict on a table: accepted, or the first of refusals 2 to 6, 14, and 7 to 9. Of a text 12,
/// 13 and 3 come first, and 2 and 5 cannot be.
pub type Verdict = Result<(), Refusal>;

/// The verdict on a table, and beside it the count of pairs compared (request 03 of document 02).
#[derive(Clone, Copy, Debug, PartialEq, Eq, Hash)]
pub struct Checked {
    /// Accepted, or a refusal.
    pub verdict: Verdict,
    /// How many pairs of components of PARs the search for a clash compared: those up to the clash,
    /// it included; all in each of the three sorts (7 cell, 8 input, 9 output) if there is none; 0
    /// if the table is refused before. At most 390,915.
    pub pairs: u32,
}

impl fmt::Display for Checked {
    /// One line without the line feed: `accepted` or `refused`, number, place; then the count.
    fn fmt(&self, out: &mut fmt::Formatter<'_>) -> fmt::Result {
        let pairs = self.pairs;
        match self.verdict {
            Ok(()) => write!(out, "accepted,{pairs}"),
            Err(Refusal { number, place }) => write!(out, "refused,{number},{place},{pairs}"),
        }
    }
}

/// How a run came to its end.
#[derive(Clone, Copy, Debug, PartialEq, Eq, Hash)]
pub enum Outcome {
    /// At rest: the root has ended.
    Ended,
    /// At rest: the root has not ended and no row is stopped.
    Stuck,
    /// At rest: the root has not ended and a row is stopped.
    Broken,
    /// The steps equal the budget and a step is ready.
    Spent,
}

impl Outcome {
    /// The outcome's word in document 01.
    pub fn word(self) -> &'static str {
        match self {
            Outcome::Ended => "ended",
            Outcome::Stuck => "stuck",
            Outcome::Broken => "broken",
            Outcome::Spent => "spent",
        }
    }
}

impl fmt::Display for Outcome {
    fn fmt(&self, out: &mut fmt::Formatter<'_>) -> fmt::Result {
        out.pad(self.word())
    }
}

/// Why a row is stopped: the value that it needed doesn't exist.
#[derive(Clone, Copy, Debug, PartialEq, Eq, Hash)]
pub enum Reason {
    /// 1: an unset cell is read.
    Unset = 1,
    /// 2: a subscript is outside the array.
    Subscript = 2,
    /// 3: the result doesn't fit.
    Fit = 3,
    /// 4: a zero divisor.
    Divisor = 4,
}

impl Reason {
    /// The paper's number of this reason.
    pub fn number(self) -> u8 {
        self as u8
    }
}

impl fmt::Display for Reason {
    fn fmt(&self, out: &mut fmt::Formatter<'_>) -> fmt::Result {
        out.pad(match self {
            Reason::Unset => "an unset cell is read",
            Reason::Subscript => "a subscript is outside the array",
            Reason::Fit => "the result doesn't fit in 32 signed bits",
            Reason::Divisor => "the divisor is zero",
        })
    }
}

/// The state of a row.
#[derive(Clone, Copy, Debug, PartialEq, Eq, Hash)]
pub enum RowState {
    /// 0: not started, or no process.
    Idle,
    /// 1: started and not ended.
    Running,
    /// 2: ended.
    Ended,
    /// 10 plus the reason.
    Stopped(Reason),
}

impl RowState {
    /// The state of this number.
    pub(crate) fn of(number: u8) -> RowState {
        match number {
            0 => RowState::Idle,
            1 => RowState::Running,
            2 => RowState::Ended,
            11 => RowState::Stopped(Reason::Unset),
            12 => RowState::Stopped(Reason::Subscript),
            13 => RowState::Stopped(Reason::Fit),
            14 => RowState::Stopped(Reason::Divisor),
            _ => panic!("the library told a row state {number}, which document 01 hasn't"),
        }
    }

    /// The paper's number of this state.
    pub fn number(self) -> u8 {
        match self {
            RowState::Idle => 0,
            RowState::Running => 1,
            RowState::Ended => 2,
            RowState::Stopped(reason) => 10 + reason.number(),
        }
    }
}

/// The verdict of a packed one: number + 65,536 times the place.
pub(crate) fn verdict(packed: u64) -> Verdict {
    match refusal(packed) {
        Some(refusal) => Err(refusal),
        None => Ok(()),
    }
}

/// The verdict of a packed one in the low 32 bits, and the count of pairs compared in the high 32.
pub(crate) fn checked(packed: u64) -> Checked {
    Checked {
        verdict: verdict(packed & 0xFFFF_FFFF),
        pairs: (packed >> 32) as u32,
    }
}

/// How many rows a packed reading of a text tells, or its refusal.
pub(crate) fn rows_read(packed: u64) -> Result<usize, Refusal> {
    match refusal(packed) {
        Some(refusal) => Err(refusal),
        None => Ok(middle(packed) as usize),
    }
}

/// What a packed answer tells of a run.
#[derive(Clone, Copy, Debug, PartialEq, Eq)]
pub(crate) struct Told {
    pub outcome: Outcome,
    pub steps: u32,
    pub ready: u32,
}

/// What a packed answer tells of a run, or its refusal: 256 times the outcome, 65,536 times the
/// steps, which have 24 bits, and 2 to the power of 40 times the number of ready steps.
pub(crate) fn answer(packed: u64) -> Result<Told, Refusal> {
    match refusal(packed) {
        Some(refusal) => Err(refusal),
        None => Ok(Told {
            outcome: outcome(packed),
            steps: middle(packed),
            ready: (packed >> 40) as u32,
        }),
    }
}

/// The refusal of a packed answer; none if its number is 0.
fn refusal(packed: u64) -> Option<Refusal> {
    let number = packed as u8;
    let place = middle(packed);
    (number != 0).then_some(Refusal { number, place })
}

/// The 24 bits of a packed answer from bit 16 on: a refusal's place, the steps, or the rows read.
fn middle(packed: u64) -> u32 {
    (packed >> 16) as u32 & 0xFF_FFFF
}

/// The outcome of a packed answer that is no refusal.
fn outcome(packed: u64) -> Outcome {
    match (packed >> 8) as u8 {
        1 => Outcome::Ended,
        2 => Outcome::Stuck,
        3 => Outcome::Broken,
        4 => Outcome::Spent,
        number => panic!("the library told an outcome {number}, which document 01 hasn't"),
    }
}

#[cfg(test)]
mod tests {
    use super::*;

    #[test]
    fn packed_answers() {
        let refused = Refusal {
            number: 4,
            place: 12,
        };
        assert_eq!(verdict(0), Ok(()));
        assert_eq!(verdict(4 + 65_536 * 12), Err(refused));
        assert_eq!(answer(4 + 65_536 * 12), Err(refused));
        assert_eq!(rows_read(65_536 * 1_024), Ok(1_024));
        assert_eq!(rows_read(4 + 65_536 * 12), Err(refused));
        let of = |verdict, pairs| Checked { verdict, pairs };
        assert_eq!(checked(390_915 << 32), of(Ok(()), 390_915));
        let clash = 4 + 65_536 * 12 + (7 << 32);
        assert_eq!(checked(clash), of(Err(refused), 7));
        let told = |outcome, steps, ready| {
            Ok(Told {
                outcome,
                steps,
                ready,
            })
        };
        assert_eq!(answer(256), told(Outcome::Ended, 0, 0));
        let spent = 256 * 4 + 65_536 * 65_536 + (1_024 << 40);
        assert_eq!(answer(spent), told(Outcome::Spent, 65_536, 1_024));
    }

    #[test]
    fn row_states_keep_their_numbers() {
        for number in [0, 1, 2, 11, 12, 13, 14] {
            assert_eq!(RowState::of(number).number(), number);
        }
    }
}
