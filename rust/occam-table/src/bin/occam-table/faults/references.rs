//! Refusal 5: references, the root, rows referred to other than once.

use crate::kinds::{Field, FIELD_NAMES, PROCESS};
use crate::program::Program;

/// Words about a table without a root.
pub fn no_root(program: &Program) -> Vec<String> {
    vec![format!(
        "the table has {} rows and no process after its declarations; expected a root, kind 20 to 35",
        program.rows.len()
    )]
}

/// Words about each fault of this sort in a row.
pub fn at_fault(program: &Program, index: usize) -> Vec<String> {
    let row = &program.rows[index];
    let mut words = Vec::new();
    if index == program.declarations && !PROCESS.contains(&row.kind) {
        words.push("it is the root; expected a process, kind 20 to 35".to_string());
    }
    for (at, field, number) in row.described() {
        if let Some((kinds, may_be_none)) = field.reference() {
            let none = may_be_none && number == -1;
            if !none && !is_right(program, index, number, kinds) {
                words.push(wrong_reference(program, index, at, field, number));
            }
        }
    }
    words.extend(wrong_count(program, index));
    words
}

/// Whether a reference goes to a higher row of one of these kinds.
fn is_right(program: &Program, index: usize, number: i32, kinds: &[i32]) -> bool {
    i64::from(number) > index as i64
        && program
            .row(number)
            .is_some_and(|row| kinds.contains(&row.kind))
}

/// Words about a wrong reference: what stands there, what was expected, where it goes.
fn wrong_reference(
    program: &Program,
    index: usize,
    at: usize,
    field: Field,
    number: i32,
) -> String {
    let goes = match program.row(number) {
        None if number == -1 => "-1 is allowed for \"first\" and \"next\" only".to_string(),
        None => format!("there is no row {number}"),
        Some(_) if i64::from(number) <= index as i64 => format!("row {number} is not higher"),
        Some(row) => format!("row {number} is {row}"),
    };
    format!(
        "field {} ({}) is {number}; expected {}; {goes}",
        FIELD_NAMES[at],
        field.word(),
        field.expected()
    )
}

/// Words about a row after the root that is not referred to exactly once.
fn wrong_count(program: &Program, index: usize) -> Option<String> {
    let from: Vec<String> = referring(program, index);
    if index <= program.declarations || from.len() == 1 {
        return None;
    }
    Some(match from.len() {
        0 => "no row refers to it; expected exactly one reference".to_string(),
        count => format!(
            "{count} references go to it, from {}; expected exactly one",
            from.join(" and ")
        ),
    })
}

/// The right references to a row, as "row 4 field b".
fn referring(program: &Program, index: usize) -> Vec<String> {
    let mut from = Vec::new();
    for (row, at_row) in program.rows.iter().enumerate().take(index) {
        for (at, field, number) in at_row.described() {
            let goes_here = usize::try_from(number) == Ok(index);
            if let Some((kinds, _)) = field.reference().filter(|_| goes_here) {
                if is_right(program, row, number, kinds) {
                    from.push(format!("row {row} field {}", FIELD_NAMES[at]));
                }
            }
        }
    }
    from
}
