//! Occam as the chemists type it (request 02): an indented text is read to the rows of a table.
//!
//! From the bytes up: the symbols of a line, its level, the expressions in it, what it says, where
//! it stands among the lines, the names of the text, the rows in their numbers.

mod lines;
mod names;
mod outline;
mod phrases;
mod rows;
mod sentences;
mod tokens;
mod tree;

use crate::refusal::Refusal;
use crate::table::Row;

/// Most bytes of a text.
pub const TEXT_BYTES: usize = 32_768;
/// Least length of the list that is lent for the rows read: four numbers to each of 1,024 rows.
pub const ROW_NUMBERS: usize = 4_096;

/// The rows of a text, numbered from the top. Refusal 12 if it is not of the grammar, then 13 if its
/// names are not in order, then 3 if it makes too many rows.
pub fn read_text(bytes: &[u8]) -> Result<Vec<Row>, Refusal> {
    let text = outline::outline(bytes)?;
    let named = names::rows_named(&text.tree.declarations, &text.tree.uses)?;
    rows::numbered(&text, &named)
}

/// The same for a caller that lends a list of this length for the rows; too short is refusal 1.
pub fn read_text_into(bytes: &[u8], room: usize) -> Result<Vec<Row>, Refusal> {
    match room < ROW_NUMBERS {
        true => Err(Refusal::new(1, 0)),
        false => read_text(bytes),
    }
}
