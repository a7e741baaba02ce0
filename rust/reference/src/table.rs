//! The table: its bytes, its lines and its rows (refusals 2 and 3).

use crate::number::read_number;
use crate::refusal::Refusal;
use std::fmt;

/// Most bytes of a table.
pub const TABLE_BYTES: usize = 32_768;
/// Most rows of a table.
pub const ROWS: usize = 1_024;
/// The first line of a table.
const NAMES_LINE: &str = "kind,a,b,c";

/// One row of four whole numbers.
#[derive(Clone, Copy, Debug, PartialEq, Eq)]
pub struct Row {
    pub kind: i32,
    pub a: i32,
    pub b: i32,
    pub c: i32,
}

impl Row {
    /// The row of these four numbers.
    pub const fn new(kind: i32, a: i32, b: i32, c: i32) -> Row {
        Row { kind, a, b, c }
    }

    /// The fields a, b and c in that order.
    pub fn fields(&self) -> [i32; 3] {
        [self.a, self.b, self.c]
    }
}

impl fmt::Display for Row {
    fn fmt(&self, out: &mut fmt::Formatter<'_>) -> fmt::Result {
        write!(out, "{},{},{},{}", self.kind, self.a, self.b, self.c)
    }
}

/// The text of a table of these rows: the line of names and a line for each row.
pub fn table_text(rows: &[Row]) -> String {
    let lines = rows.iter().map(|row| format!("{row}\n"));
    format!("{NAMES_LINE}\n") + &lines.collect::<String>()
}

/// One line: its bytes without the line feed, and whether it ends with one.
pub struct Line<'a> {
    pub bytes: &'a [u8],
    pub ends: bool,
}

/// The lines of some bytes; bytes after the last line feed are one more line that doesn't end.
pub fn lines(bytes: &[u8]) -> impl Iterator<Item = Line<'_>> {
    bytes
        .split_inclusive(|&byte| byte == b'\n')
        .map(|piece| match piece.strip_suffix(b"\n") {
            Some(bytes) => Line { bytes, ends: true },
            None => Line {
                bytes: piece,
                ends: false,
            },
        })
}

/// The rows of a table's bytes, or the earliest fault by line: refusal 2 or 3.
pub fn rows_of_bytes(bytes: &[u8]) -> Result<Vec<Row>, Refusal> {
    if bytes.len() > TABLE_BYTES {
        return Err(Refusal::new(2, 0));
    }
    if bytes.is_empty() {
        return Err(Refusal::new(2, 1));
    }
    let mut rows = Vec::new();
    for (index, line) in lines(bytes).enumerate() {
        let number = index + 1;
        let malformed = Refusal::new(2, number);
        if !line.ends {
            return Err(malformed);
        }
        if number == 1 {
            if line.bytes != NAMES_LINE.as_bytes() {
                return Err(malformed);
            }
            continue;
        }
        let row = read_row(line.bytes).ok_or(malformed)?;
        if rows.len() == ROWS {
            return Err(Refusal::new(3, ROWS));
        }
        rows.push(row);
    }
    Ok(rows)
}

/// Reads a line of exactly four numbers.
fn read_row(line: &[u8]) -> Option<Row> {
    let mut fields = line.split(|&byte| byte == b',').map(read_number);
    let row = Row::new(
        fields.next()??,
        fields.next()??,
        fields.next()??,
        fields.next()??,
    );
    match fields.next() {
        None => Some(row),
        Some(_) => None,
    }
}

/// The rows of lent numbers, four to each, or refusal 3.
pub fn rows_of_numbers(numbers: &[i32]) -> Result<Vec<Row>, Refusal> {
    let whole_rows = numbers.len() / 4;
    if !numbers.len().is_multiple_of(4) || whole_rows > ROWS {
        return Err(Refusal::new(3, whole_rows.min(ROWS)));
    }
    let row = |four: &[i32]| Row::new(four[0], four[1], four[2], four[3]);
    Ok(numbers.chunks_exact(4).map(row).collect())
}
