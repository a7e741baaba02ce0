//! Refusals 7, 8 and 9: what two members of a PAR have in common.

use crate::kinds::{ASSIGNMENT, ELEMENT, INPUT, OUTPUT};
use crate::program::Program;
use crate::values::constant;
use std::ops::Range;

/// What a row does to cells or elements.
#[derive(Clone, Copy, PartialEq, Eq)]
enum Deed {
    Changes,
    Uses,
    Inputs,
    Outputs,
}

/// What a row does, and the positions that it counts for.
#[derive(Clone)]
struct Access {
    row: usize,
    deed: Deed,
    declaration: usize,
    positions: Range<usize>,
    /// Whether it is an input's target.
    target: bool,
    /// Whether every number of the name counts.
    whole: bool,
}

impl Access {
    fn word(&self) -> &'static str {
        match self.deed {
            Deed::Changes if self.target => "changed, as an input's target,",
            Deed::Changes => "changed",
            Deed::Uses => "used",
            Deed::Inputs => "input from",
            Deed::Outputs => "output to",
        }
    }
}

/// Words about the first pair of members with a clash of the refusal's sort.
pub fn clash(program: &Program, par: usize, number: u8) -> Vec<String> {
    let members = program.list(par);
    let accesses: Vec<Vec<Access>> = members
        .iter()
        .map(|&member| component(program, member))
        .collect();
    for first in 0..members.len() {
        for second in first + 1..members.len() {
            let found = common(&accesses[first], &accesses[second], number);
            if let Some((one, other)) = found {
                return words(program, [members[first], members[second]], &one, &other);
            }
        }
    }
    Vec::new()
}

/// Words about two members and what they have in common.
fn words(program: &Program, members: [usize; 2], one: &Access, other: &Access) -> Vec<String> {
    let position = one.positions.start.max(other.positions.start);
    let number = position - program.part(one.declaration).start;
    let name = program.sort_and_name(one.declaration);
    let what = match one.deed {
        _ if program.origin.is_some() => program.part_words(one.declaration, Some(number)),
        Deed::Changes | Deed::Uses => format!("cell {number} of {name}"),
        Deed::Inputs | Deed::Outputs => format!("element {number} of {name}"),
    };
    let deed = |access: &Access| {
        let whole = match access.whole {
            true => "; its subscript has no constant value, so every number of the name counts",
            false => "",
        };
        format!(
            "is {} by {}{whole}",
            access.word(),
            program.shown(access.row)
        )
    };
    let [first, second] = members.map(|member| program.place(member));
    vec![
        format!("the members in {first} and {second} both have {what}"),
        format!("in the member of {first} it {}", deed(one)),
        format!("in the member of {second} it {}", deed(other)),
    ]
}

/// The first two accesses that clash.
fn common(first: &[Access], second: &[Access], number: u8) -> Option<(Access, Access)> {
    let clashes = |one: Deed, other: Deed| match number {
        7 => matches!(
            (one, other),
            (Deed::Changes, Deed::Changes | Deed::Uses) | (Deed::Uses, Deed::Changes)
        ),
        8 => (one, other) == (Deed::Inputs, Deed::Inputs),
        _ => (one, other) == (Deed::Outputs, Deed::Outputs),
    };
    let meet = |one: &Access, other: &Access| {
        one.positions.start.max(other.positions.start) < one.positions.end.min(other.positions.end)
    };
    first.iter().find_map(|one| {
        let other = second
            .iter()
            .find(|other| clashes(one.deed, other.deed) && meet(one, other))?;
        Some((one.clone(), other.clone()))
    })
}

/// What a member's process does with all beneath it, in row order.
fn component(program: &Program, member: usize) -> Vec<Access> {
    let Some(process) = usize::try_from(program.rows[member].a()).ok() else {
        return Vec::new();
    };
    let beneath = program.beneath(process);
    let targets: Vec<usize> = std::iter::once(process)
        .chain(beneath.iter().copied())
        .filter(|&row| program.rows[row].kind == INPUT)
        .filter_map(|row| usize::try_from(program.rows[row].c()).ok())
        .collect();
    let rows = std::iter::once(process).chain(beneath);
    rows.filter_map(|row| {
        let deed = match program.rows[row].kind {
            ASSIGNMENT => Deed::Changes,
            ELEMENT if targets.contains(&row) => Deed::Changes,
            ELEMENT => Deed::Uses,
            INPUT => Deed::Inputs,
            OUTPUT => Deed::Outputs,
            _ => return None,
        };
        access(program, row, deed, targets.contains(&row))
    })
    .collect()
}

/// What a row does: with a constant subscript one position, or none if it is outside.
fn access(program: &Program, row: usize, deed: Deed, target: bool) -> Option<Access> {
    let declaration = usize::try_from(program.rows[row].a()).ok()?;
    let part = program.part(declaration);
    let number = constant(program, program.rows[row].b());
    let positions = match number {
        Some(number) => {
            let position = part.start + usize::try_from(number).ok()?;
            position..(position + 1).min(part.end)
        }
        None => part,
    };
    Some(Access {
        row,
        deed,
        declaration,
        positions,
        target,
        whole: number.is_none(),
    })
}
