//! Occam texts: read to rows, and checked (request 02 of document 02).

use crate::answers::{self, Refusal, Verdict};
use crate::buffers::ROWS;
use crate::calls;

/// The rows of an occam text, numbered from the top. Refused with a line: 12 where the text is not
/// of the grammar, 13 where a name is not in order. Refused by 3 if it makes more than 1,024 rows.
///
/// ```
/// use occam_table::{read_text, Refusal};
///
/// let rows = read_text(b"SEQ\n  SKIP\n")?;
/// assert_eq!(rows, [[30, 1, 0, 0], [40, 2, -1, 0], [21, 0, 0, 0]]);
///
/// // Line 2 has two operators without brackets.
/// let refusal = read_text(b"INT x:\nx := 1 + 2 + 3\n").unwrap_err();
/// assert_eq!(refusal, Refusal { number: 12, place: 2 });
/// # Ok::<(), Refusal>(())
/// ```
pub fn read_text(text: &[u8]) -> Result<Vec<[i32; 4]>, Refusal> {
    let mut numbers = vec![0; 4 * ROWS];
    let count = answers::rows_read(calls::read_text(text, &mut numbers))?;
    let rows = numbers[..4 * count].chunks_exact(4);
    Ok(rows.map(|row| [row[0], row[1], row[2], row[3]]).collect())
}

/// The verdict on an occam text: that of reading, and then that on its rows.
///
/// ```
/// use occam_table::check_text;
///
/// assert!(check_text(b"INT x:\nx := 1\n").is_ok());
/// let refusal = check_text(b"INT x:\ny := 1\n").unwrap_err();
/// assert_eq!((refusal.number, refusal.place), (13, 2), "y is declared nowhere");
/// ```
pub fn check_text(text: &[u8]) -> Verdict {
    answers::verdict(calls::check_text(text))
}
