//! The rows of a table, for words about them: declarations, references, what is beneath a row.

use crate::kinds::{kind_name, kind_of, Field, CHANNEL, FROM_HOST, TO_HOST, VARIABLE};
use crate::kinds::{GUARD, OPTION};
use crate::origin::Origin;
use std::fmt;
use std::ops::Range;

/// A row of a table.
#[derive(Clone, Copy, Debug, PartialEq, Eq)]
pub struct Row {
    pub kind: i32,
    pub fields: [i32; 3],
}

impl Row {
    pub fn a(&self) -> i32 {
        self.fields[0]
    }

    pub fn b(&self) -> i32 {
        self.fields[1]
    }

    pub fn c(&self) -> i32 {
        self.fields[2]
    }

    /// The fields that are used or checked, each with its number.
    pub fn described(&self) -> impl Iterator<Item = (usize, Field, i32)> {
        let fields = kind_of(self.kind).map(|(_, fields)| fields);
        let numbers = self.fields;
        let each = move |fields: [Field; 3]| (0..3).map(move |at| (at, fields[at], numbers[at]));
        fields.into_iter().flat_map(each)
    }
}

impl fmt::Display for Row {
    /// The row as it is written in a table, and its kind's name.
    fn fmt(&self, out: &mut fmt::Formatter<'_>) -> fmt::Result {
        let [a, b, c] = self.fields;
        write!(out, "{},{a},{b},{c} ({})", self.kind, kind_name(self.kind))
    }
}

/// The rows of a table, accepted or not.
pub struct Program {
    pub rows: Vec<Row>,
    /// How many declarations come first; the root is the row after them.
    pub declarations: usize,
    /// Where the rows came from, if they were read from a text.
    pub origin: Option<Origin>,
}

impl Program {
    /// The program of rows as the library read them.
    pub fn new(rows: &[[i32; 4]]) -> Program {
        let row = |&[kind, a, b, c]: &[i32; 4]| Row {
            kind,
            fields: [a, b, c],
        };
        let rows: Vec<Row> = rows.iter().map(row).collect();
        let is_declaration = |row: &&Row| matches!(row.kind, VARIABLE | CHANNEL);
        let declarations = rows.iter().take_while(is_declaration).count();
        Program {
            rows,
            declarations,
            origin: None,
        }
    }

    /// The program of rows as the library read them from a text.
    pub fn of_text(rows: &[[i32; 4]], text: &[u8]) -> Program {
        let program = Program::new(rows);
        let origin = Some(Origin::new(&program, text));
        Program { origin, ..program }
    }

    /// The same program, named by rows also if it is of a text.
    pub fn by_rows(self) -> Program {
        Program {
            origin: None,
            ..self
        }
    }

    /// Where a row stands: its number, or its line of a text.
    pub fn place(&self, row: usize) -> String {
        match &self.origin {
            Some(origin) => format!("line {}", origin.line(row)),
            None => format!("row {row}"),
        }
    }

    /// Where a row stands, and its kind or, of a text, its line as written.
    pub fn place_and_kind(&self, row: usize) -> String {
        let what = match &self.origin {
            Some(origin) => origin.source(row),
            None => kind_name(self.rows[row].kind).to_string(),
        };
        format!("{} ({what})", self.place(row))
    }

    /// Where a row stands, and the row or line as written.
    pub fn shown(&self, row: usize) -> String {
        let what = match &self.origin {
            Some(origin) => origin.source(row),
            None => self.rows[row].to_string(),
        };
        format!("{}: {what}", self.place(row))
    }

    /// The name of a declaration: its row, or the name that a text gives it.
    pub fn name(&self, declaration: usize) -> String {
        match &self.origin {
            Some(origin) => origin.name(declaration).to_string(),
            None => declaration.to_string(),
        }
    }

    /// A declaration with its sort.
    pub fn sort_and_name(&self, declaration: usize) -> String {
        let sort = match self.rows[declaration].kind {
            VARIABLE => "variable",
            _ => "channel",
        };
        format!("{sort} {}", self.name(declaration))
    }

    /// A cell or an element, or the whole declaration if the number is not known.
    pub fn part_words(&self, declaration: usize, number: Option<usize>) -> String {
        let whole = self.sort_and_name(declaration);
        let row = &self.rows[declaration];
        match (number, &self.origin) {
            (Some(_), Some(_)) if row.a() == 1 => whole,
            (Some(number), Some(_)) => format!("{whole}[{number}]"),
            (Some(number), None) if row.kind == VARIABLE => format!("{whole} cell {number}"),
            (Some(number), None) => format!("{whole} element {number}"),
            (None, _) => whole,
        }
    }

    /// The row of this number, if there is one.
    pub fn row(&self, number: i32) -> Option<&Row> {
        usize::try_from(number)
            .ok()
            .and_then(|row| self.rows.get(row))
    }

    /// The declaration of this number, if there is one.
    pub fn declaration(&self, number: i32) -> Option<&Row> {
        let declarations = &self.rows[..self.declarations];
        usize::try_from(number)
            .ok()
            .and_then(|row| declarations.get(row))
    }

    /// The rows of the declarations of this kind.
    fn declared(&self, kind: i32) -> impl Iterator<Item = usize> + '_ {
        (0..self.declarations).filter(move |&row| self.rows[row].kind == kind)
    }

    /// The rows of the variables.
    pub fn variables(&self) -> impl Iterator<Item = usize> + '_ {
        self.declared(VARIABLE)
    }

    /// The rows of the channels from the host (role 1) or to the host (role 2).
    fn host_channels(&self, role: i32) -> impl Iterator<Item = usize> + '_ {
        self.declared(CHANNEL)
            .filter(move |&row| self.rows[row].b() == role)
    }

    /// The rows of the channels from the host.
    pub fn reading_channels(&self) -> impl Iterator<Item = usize> + '_ {
        self.host_channels(FROM_HOST)
    }

    /// The rows of the channels to the host.
    pub fn output_channels(&self) -> impl Iterator<Item = usize> + '_ {
        self.host_channels(TO_HOST)
    }

    /// The positions of a variable's cells, or a channel's elements, among all of that sort.
    pub fn part(&self, declaration: usize) -> Range<usize> {
        let size = |row: usize| usize::try_from(self.rows[row].a()).unwrap_or(0);
        let kind = self.rows[declaration].kind;
        let before = self.declared(kind).take_while(|&row| row < declaration);
        let first: usize = before.map(size).sum();
        first..first + size(declaration)
    }

    /// The rows that a row refers to, higher ones only.
    pub fn references(&self, row: usize) -> impl Iterator<Item = usize> + '_ {
        self.rows[row]
            .described()
            .filter(|(_, field, _)| field.reference().is_some())
            .filter_map(|(_, _, number)| usize::try_from(number).ok())
            .filter(move |&other| other > row && other < self.rows.len())
    }

    /// The rows beneath a row, itself not, in row order.
    pub fn beneath(&self, row: usize) -> Vec<usize> {
        let mut left: Vec<usize> = self.references(row).collect();
        let mut found = Vec::new();
        while let Some(next) = left.pop() {
            found.push(next);
            left.extend(self.references(next));
        }
        found.sort_unstable();
        found
    }

    /// Whether a row is the input or SKIP of a guard.
    pub fn is_guarded(&self, row: usize) -> bool {
        let is_guard_of = |other: &Row| match other.kind {
            OPTION => usize::try_from(other.c()) == Ok(row),
            GUARD => usize::try_from(other.b()) == Ok(row),
            _ => false,
        };
        self.rows.iter().any(is_guard_of)
    }

    /// The members, choices or options of a row, in order.
    pub fn list(&self, row: usize) -> Vec<usize> {
        let higher = |from: usize, number: i32| {
            usize::try_from(number)
                .ok()
                .filter(|&to| to > from && to < self.rows.len())
        };
        let first = higher(row, self.rows[row].a());
        std::iter::successors(first, |&link| higher(link, self.rows[link].b())).collect()
    }
}

#[cfg(test)]
mod tests {
    use super::*;

    fn program() -> Program {
        Program::new(&[
            [1, 3, 0, 0],
            [2, 2, 0, 0],
            [1, 2, 0, 0],
            [2, 1, 1, 0],
            [30, 5, 0, 0],
            [40, 7, 6, 0],
            [40, 8, -1, 0],
            [21, 0, 0, 0],
            [20, 0, 0, 0],
        ])
    }

    #[test]
    fn parts_follow_one_another() {
        let program = program();
        assert_eq!(program.part(0), 0..3);
        assert_eq!(program.part(2), 3..5);
        assert_eq!(program.part(1), 0..2);
        assert_eq!(program.part(3), 2..3);
        assert_eq!(program.reading_channels().collect::<Vec<_>>(), [3]);
    }

    #[test]
    fn lists_and_what_is_beneath() {
        let program = program();
        assert_eq!(program.list(4), [5, 6]);
        assert_eq!(program.beneath(4), [5, 6, 7, 8]);
        assert_eq!(program.beneath(5), [6, 7, 8]);
    }

    #[test]
    fn a_row_as_written() {
        assert_eq!(program().rows[6].to_string(), "40,8,-1,0 (member)");
    }
}
