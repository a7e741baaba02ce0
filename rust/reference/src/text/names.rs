//! The names of a text: each declared once, used as what it is, and bare only if of size one.

use crate::kinds::{CHANNEL, FROM_HOST, INNER, TO_HOST, VARIABLE};
use crate::refusal::Refusal;
use crate::table::Row;
use std::collections::HashMap;

/// A declaration: its name, the number of its line, its row.
pub struct Declaration<'t> {
    pub name: &'t str,
    pub line: usize,
    pub row: Row,
}

/// As what a name is used.
#[derive(Clone, Copy, Debug, PartialEq, Eq)]
pub enum Role {
    Variable,
    /// A channel that is input from.
    Input,
    /// A channel that is output to.
    Output,
}

/// A use of a name: the number of its line, as what, and whether it is bare.
#[derive(Clone, Copy, Debug)]
pub struct Use<'t> {
    pub name: &'t str,
    pub line: usize,
    pub role: Role,
    pub bare: bool,
}

/// The row that each use means, or refusal 13 with the lowest line at fault. Names have no scope: a
/// name means its first declaration, wherever it stands.
pub fn rows_named(
    declarations: &[Declaration<'_>],
    uses: &[Use<'_>],
) -> Result<Vec<usize>, Refusal> {
    let mut first = HashMap::new();
    let mut lines_at_fault = Vec::new();
    for (row, declaration) in declarations.iter().enumerate() {
        if *first.entry(declaration.name).or_insert(row) != row {
            lines_at_fault.push(declaration.line);
        }
    }
    let mut named = Vec::new();
    for usage in uses {
        match first.get(usage.name) {
            Some(&row) if fits(&declarations[row].row, usage) => named.push(row),
            _ => lines_at_fault.push(usage.line),
        }
    }
    match lines_at_fault.into_iter().min() {
        Some(line) => Err(Refusal::new(13, line)),
        None => Ok(named),
    }
}

/// Whether a name of this declaration may be used so; field a is the size of either sort.
fn fits(row: &Row, usage: &Use<'_>) -> bool {
    let of_role = match usage.role {
        Role::Variable => row.kind == VARIABLE,
        Role::Input => row.kind == CHANNEL && [INNER, FROM_HOST].contains(&row.b),
        Role::Output => row.kind == CHANNEL && [INNER, TO_HOST].contains(&row.b),
    };
    of_role && (row.a == 1 || !usage.bare)
}
