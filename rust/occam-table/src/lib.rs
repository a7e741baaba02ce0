//! The proved checker and machine for small occam programs kept as tables of rows.
//!
//! Every answer comes from `target/staticlib/liboccam_table.a`, which `tools/build occam_table`
//! makes at the project's root from proved code. Where it is missing this crate still compiles,
//! and every call fails and says what to run. What the words mean (row, step, outcome, refusal,
//! place) is fixed by document 01, "An occam table checker and runner for kiln monitoring sets".
//!
//! # A run
//!
//! The table reads a number from the host, and writes it plus 5 to the host.
//!
//! ```
//! use occam_table::{Machine, Outcome, BUDGET};
//!
//! let table = b"kind,a,b,c\n2,1,1,0\n2,1,2,4\n1,1,0,0\n30,4,0,0\n40,5,9,0\n23,0,6,7\n\
//!     10,0,0,0\n11,2,8,0\n10,0,0,0\n40,10,-1,0\n24,1,11,12\n10,0,0,0\n13,0,13,15\n\
//!     11,2,14,0\n10,0,0,0\n10,5,0,0\n";
//! let mut machine = Machine::new();
//!
//! let run = machine.run_table(table, b"0\n120\n", &[], BUDGET)?;
//! assert_eq!((run.outcome, run.steps), (Outcome::Ended, 2));
//! assert_eq!(run.cell(0), Some(120));
//! assert_eq!(run.list(0), [Some(125)]);
//!
//! // A missing reading stays missing: the cell is unset, and no number is made of it.
//! let run = machine.run_table(table, b"0\n\n", &[], BUDGET)?;
//! assert_eq!((run.outcome, run.steps), (Outcome::Broken, 2));
//! assert_eq!(run.cell(0), None);
//! assert!(run.list(0).is_empty());
//! # Ok::<(), occam_table::Refusal>(())
//! ```
//!
//! # A text
//!
//! The same, typed as occam. [`read_text`] gives the rows of a text.
//!
//! ```
//! use occam_table::{check_text, Machine, BUDGET};
//!
//! let text = b"HOSTIN lime:\nHOSTOUT 4 panel:\nINT x:\nSEQ\n  lime ? x\n  panel ! x + 5\n";
//! check_text(text)?;
//! let mut machine = Machine::new();
//! let run = machine.run_text(text, b"0\n120\n", &[], BUDGET)?;
//! assert_eq!(run.list(0), [Some(125)]);
//! # Ok::<(), occam_table::Refusal>(())
//! ```
//!
//! # A refusal
//!
//! ```
//! use occam_table::{check_table, Refusal};
//!
//! // Row 0 is a SKIP with a field that should be 0.
//! let refusal = Refusal { number: 4, place: 0 };
//! assert_eq!(check_table(b"kind,a,b,c\n21,0,0,7\n"), Err(refusal));
//! assert_eq!(refusal.to_string(), "refused,4,0,0");
//! ```
//!
//! # Memory
//!
//! A call of the library uses no heap. It answers within [`STACK`] bytes of stack, the deepest
//! tables and texts included.

mod answers;
mod buffers;
#[cfg(proved)]
pub mod calls;
#[cfg(not(proved))]
#[path = "missing.rs"]
pub mod calls;
mod machine;
mod run;
mod sizes;
mod texts;
mod traced;

pub use answers::{Checked, Outcome, Reason, Refusal, RowState, Verdict};
pub use buffers::{Buffers, Lent, LentTrace};
pub use buffers::{BUDGET, CAPACITIES, CELLS, HOST_CHANNELS, ROWS, TRACE};
pub use machine::{check_rows, check_rows_counted, check_table, check_table_counted};
pub use machine::{read_rows, strip, Machine, Strip};
pub use run::{Run, Snapshot};
pub use texts::{check_text, read_text};
pub use traced::{Step, Traced};

/// What to do where the proved library is missing.
pub const MISSING: &str = "target/staticlib/liboccam_table.a is missing: \
    run `tools/build occam_table` at the project's root, then this again";

/// A stack in bytes within which every call answers: 1 MiB, half of what a thread of the standard
/// library has by default.
///
/// The tables that need most are tested in a thread with this stack. The least that was enough
/// for them was 432 KiB (x86-64, built for release): a constant subscript 1,011 operators deep.
pub const STACK: usize = 1 << 20;

/// Whether the proved library is linked; without it every call fails with [`MISSING`].
pub fn is_linked() -> bool {
    calls::LINKED
}
