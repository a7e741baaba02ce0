//! References: each goes to a higher row of the kind named, each later row has one (refusal 5).

use crate::kinds::{declaration_count, fields_of, Field, PROCESS};
use crate::refusal::Refusal;
use crate::table::Row;

/// Refusal 5 at the lowest row at fault, or at the count of rows if there is no root.
pub fn check_references(rows: &[Row]) -> Result<(), Refusal> {
    let root = declaration_count(rows);
    if root == rows.len() {
        return Err(Refusal::new(5, rows.len()));
    }
    let mut at_fault = vec![false; rows.len()];
    let mut referred = vec![0usize; rows.len()];
    at_fault[root] = !PROCESS.contains(&rows[root].kind);
    for index in 0..rows.len() {
        for reference in references_of(&rows[index]) {
            match target(rows, index, reference) {
                Target::Row(row) => referred[row] += 1,
                Target::None => {}
                Target::Wrong => at_fault[index] = true,
            }
        }
    }
    let wrong_count = |row: usize| row > root && referred[row] != 1;
    match (0..rows.len()).find(|&row| at_fault[row] || wrong_count(row)) {
        Some(row) => Err(Refusal::new(5, row)),
        None => Ok(()),
    }
}

/// One reference of a row: its number, whether -1 for none is allowed, and the kinds named.
struct Reference {
    number: i32,
    may_be_none: bool,
    kinds: &'static [i32],
}

/// Where a reference goes.
enum Target {
    Row(usize),
    None,
    Wrong,
}

/// The references of a row, in the order of its fields; names are not among them.
fn references_of(row: &Row) -> impl Iterator<Item = Reference> {
    let fields = fields_of(row.kind).into_iter().flatten();
    fields
        .zip(row.fields())
        .filter_map(|(field, number)| match field {
            Field::Refers(kinds) => Some(Reference {
                number,
                may_be_none: false,
                kinds,
            }),
            Field::RefersOrNone(kinds) => Some(Reference {
                number,
                may_be_none: true,
                kinds,
            }),
            _ => None,
        })
}

/// The target of a reference in row `index`: right only if higher and of a kind named.
fn target(rows: &[Row], index: usize, reference: Reference) -> Target {
    if reference.may_be_none && reference.number == -1 {
        return Target::None;
    }
    match usize::try_from(reference.number) {
        Ok(row) if row > index && row < rows.len() && reference.kinds.contains(&rows[row].kind) => {
            Target::Row(row)
        }
        _ => Target::Wrong,
    }
}
