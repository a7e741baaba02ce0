//! The kinds of rows: one constant table of what each field holds (refusal 4).

use crate::refusal::Refusal;
use crate::table::Row;

pub const VARIABLE: i32 = 1;
pub const CHANNEL: i32 = 2;
pub const LITERAL: i32 = 10;
pub const ELEMENT: i32 = 11;
pub const MONADIC: i32 = 12;
pub const DYADIC: i32 = 13;
pub const STOP: i32 = 20;
pub const SKIP: i32 = 21;
pub const ASSIGNMENT: i32 = 22;
pub const INPUT: i32 = 23;
pub const OUTPUT: i32 = 24;
pub const SEQ: i32 = 30;
pub const PAR: i32 = 31;
pub const IF: i32 = 32;
pub const WHILE: i32 = 33;
pub const ALT: i32 = 34;
pub const BLOCK: i32 = 35;
pub const MEMBER: i32 = 40;
pub const CHOICE: i32 = 41;
pub const OPTION: i32 = 42;
pub const GUARD: i32 = 43;

/// The kinds that are an expression or boolean.
pub const EXPRESSION: &[i32] = &[LITERAL, ELEMENT, MONADIC, DYADIC];
/// The kinds that are a process.
pub const PROCESS: &[i32] = &[
    STOP, SKIP, ASSIGNMENT, INPUT, OUTPUT, SEQ, PAR, IF, WHILE, ALT, BLOCK,
];

/// The monadic operator whose operand is an element, set or not.
pub const GIVEN: i32 = 2;

/// Role of a channel inside the table.
pub const INNER: i32 = 0;
/// Role of a channel from the host.
pub const FROM_HOST: i32 = 1;
/// Role of a channel to the host.
pub const TO_HOST: i32 = 2;

/// What a field of a row holds.
#[derive(Clone, Copy)]
pub enum Field {
    /// Not named in the paper: 0.
    Unused,
    /// The value of a literal: any number.
    Value,
    /// An operator, a size, a role or a capacity within these bounds.
    Within(i32, i32),
    /// The row of a declared variable.
    VariableName,
    /// The row of a declared channel of one of these two roles.
    ChannelName(i32, i32),
    /// A reference to a higher row of one of these kinds.
    Refers(&'static [i32]),
    /// "First" or "next": such a reference, or -1 for none.
    RefersOrNone(&'static [i32]),
}

use Field::{ChannelName, Refers, RefersOrNone, Unused, Value, VariableName, Within};

/// What the fields a, b and c of a row of this kind hold; `None` for an unknown kind.
pub fn fields_of(kind: i32) -> Option<[Field; 3]> {
    Some(match kind {
        VARIABLE => [Within(1, 64), Unused, Unused],
        CHANNEL => [Within(1, 64), Within(INNER, TO_HOST), Within(0, 256)],
        LITERAL => [Value, Unused, Unused],
        ELEMENT => [VariableName, Refers(EXPRESSION), Unused],
        MONADIC => [Within(0, GIVEN), Refers(EXPRESSION), Unused],
        DYADIC => [Within(0, 15), Refers(EXPRESSION), Refers(EXPRESSION)],
        STOP | SKIP => [Unused, Unused, Unused],
        ASSIGNMENT => [VariableName, Refers(EXPRESSION), Refers(EXPRESSION)],
        INPUT => [
            ChannelName(INNER, FROM_HOST),
            Refers(EXPRESSION),
            Refers(&[ELEMENT]),
        ],
        OUTPUT => [
            ChannelName(INNER, TO_HOST),
            Refers(EXPRESSION),
            Refers(EXPRESSION),
        ],
        SEQ | PAR => [RefersOrNone(&[MEMBER]), Unused, Unused],
        IF => [RefersOrNone(&[CHOICE]), Unused, Unused],
        WHILE => [Refers(EXPRESSION), Refers(PROCESS), Unused],
        ALT => [RefersOrNone(&[OPTION]), Unused, Unused],
        BLOCK => [VariableName, Refers(PROCESS), Unused],
        MEMBER => [Refers(PROCESS), RefersOrNone(&[MEMBER]), Unused],
        CHOICE => [Refers(PROCESS), RefersOrNone(&[CHOICE]), Refers(EXPRESSION)],
        OPTION => [
            Refers(PROCESS),
            RefersOrNone(&[OPTION]),
            Refers(&[INPUT, GUARD]),
        ],
        GUARD => [Refers(EXPRESSION), Refers(&[INPUT, SKIP]), Unused],
        _ => return None,
    })
}

/// The rows that a row refers to, if its references are right; names are not among them.
pub fn rows_referred_to(row: &Row) -> impl Iterator<Item = usize> {
    let fields = fields_of(row.kind).into_iter().flatten();
    fields
        .zip(row.fields())
        .filter_map(|(field, number)| match field {
            Refers(_) | RefersOrNone(_) => usize::try_from(number).ok(),
            _ => None,
        })
}

/// Whether a row is a declaration by its kind.
pub fn is_declaration(row: &Row) -> bool {
    matches!(row.kind, VARIABLE | CHANNEL)
}

/// The number of declarations: the rows of kinds 1 and 2 that come first.
pub fn declaration_count(rows: &[Row]) -> usize {
    rows.iter().take_while(|row| is_declaration(row)).count()
}

/// Refusal 4 at the lowest row at fault.
pub fn check_kinds(rows: &[Row]) -> Result<(), Refusal> {
    let declarations = &rows[..declaration_count(rows)];
    match (0..rows.len()).find(|&row| is_at_fault(rows, declarations, row)) {
        Some(row) => Err(Refusal::new(4, row)),
        None => Ok(()),
    }
}

/// Whether a row has an unknown kind, is a late declaration, or has a wrong field of sort 4.
fn is_at_fault(rows: &[Row], declarations: &[Row], index: usize) -> bool {
    let row = &rows[index];
    let Some(fields) = fields_of(row.kind) else {
        return true;
    };
    let late = is_declaration(row) && index >= declarations.len();
    let wrong_field = (fields.into_iter().zip(row.fields()))
        .any(|(field, number)| !field_fits(declarations, field, number));
    let whole_row_fits = match row.kind {
        CHANNEL => channel_fits(row),
        MONADIC => operand_fits(rows, row),
        _ => true,
    };
    late || wrong_field || !whole_row_fits
}

/// Whether a field's number fits; references are left to refusal 5.
fn field_fits(declarations: &[Row], field: Field, number: i32) -> bool {
    let named = usize::try_from(number)
        .ok()
        .and_then(|row| declarations.get(row));
    match field {
        Unused => number == 0,
        Value | Refers(_) | RefersOrNone(_) => true,
        Within(least, most) => (least..=most).contains(&number),
        VariableName => named.is_some_and(|row| row.kind == VARIABLE),
        ChannelName(inner, host) => {
            named.is_some_and(|row| row.kind == CHANNEL && (row.b == inner || row.b == host))
        }
    }
}

/// Whether an operand fits its monadic operator: GIVEN takes no row of another kind than an element.
/// A number that is no row is left to refusal 5.
fn operand_fits(rows: &[Row], row: &Row) -> bool {
    let operand = usize::try_from(row.b).ok().and_then(|row| rows.get(row));
    row.a != GIVEN || operand.is_none_or(|operand| operand.kind == ELEMENT)
}

/// Whether a channel's elements and capacity fit its role.
fn channel_fits(row: &Row) -> bool {
    (row.b == INNER || row.a == 1) && (row.b == TO_HOST || row.c == 0)
}
