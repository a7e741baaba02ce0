//! The separate program: an occam table checker and runner, from the papers alone.
//!
//! The modules read top-down like document 01: the table and its refusals, usage,
//! values, steps, readings and results, then the run on paper. `text` reads a table from occam text.

pub mod number;
pub mod refusal;

pub mod table;
pub mod text;

pub mod kinds;
pub mod references;

pub mod blocks;
pub mod constants;
pub mod limits;
pub mod usage;

pub mod program;
pub mod values;

pub mod state;
pub mod steps;

pub mod run;
pub mod sheet;

pub mod answer;
pub mod printing;

pub mod explore;
pub mod generate;
pub mod join;

pub use answer::{answer_bytes, Answer, Ran, Source, Traced};
pub use answer::{check_bytes, check_bytes_counted, check_rows_counted, Checked};
pub use answer::{BUDGET_LIMIT, BUFFER_LENGTHS, TRACE_LENGTH};
pub use refusal::Refusal;
pub use run::{Outcome, Taken};
pub use text::read_text;
