//! Refusal 6: a declaration that passes a limit.

use crate::kinds::{CHANNEL, FROM_HOST, TO_HOST, VARIABLE};
use crate::program::{Program, Row};

/// Words about each limit that the declarations up to this one pass.
pub fn passed(program: &Program, index: usize) -> Vec<String> {
    let rows = &program.rows[..=index];
    let sum = |fits: fn(&Row) -> bool, size: fn(&Row) -> i64| -> i64 {
        rows.iter().filter(|row| fits(row)).map(size).sum()
    };
    let is_output = |row: &Row| row.kind == CHANNEL && row.b() == TO_HOST;
    let is_reading = |row: &Row| row.kind == CHANNEL && row.b() == FROM_HOST;
    let sums = [
        ("cells", sum(|row| row.kind == VARIABLE, size_of), 256),
        (
            "channel elements",
            sum(|row| row.kind == CHANNEL, size_of),
            256,
        ),
        ("channels from the host", sum(is_reading, |_| 1), 8),
        ("channels to the host", sum(is_output, |_| 1), 8),
        (
            "capacities together",
            sum(is_output, |row| i64::from(row.c())),
            1_024,
        ),
    ];
    let past = sums.into_iter().filter(|(_, sum, limit)| sum > limit);
    past.map(|(what, sum, limit)| {
        format!("{what}: {sum} with this declaration; at most {limit} are allowed")
    })
    .collect()
}

/// The cells or elements of a declaration.
fn size_of(row: &Row) -> i64 {
    i64::from(row.a())
}
