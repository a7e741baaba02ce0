//! Refusal 4: kind, late declaration, number, name, operand of GIVEN or unused field.

use crate::kinds::{
    kind_of, Field, CHANNEL, ELEMENT, FIELD_NAMES, FROM_HOST, GIVEN, INNER, MONADIC, TO_HOST,
    VARIABLE,
};
use crate::program::{Program, Row};

/// Words about each fault of this sort in a row.
pub fn at_fault(program: &Program, index: usize) -> Vec<String> {
    let row = &program.rows[index];
    if kind_of(row.kind).is_none() {
        return vec![format!(
            "{} is no kind; expected 1, 2, 10 to 13, 20 to 24, 30 to 35 or 40 to 43",
            row.kind
        )];
    }
    let mut words = Vec::new();
    if matches!(row.kind, VARIABLE | CHANNEL) && index >= program.declarations {
        words.push(late_declaration(program));
    }
    for (at, field, number) in row.described() {
        if !fits(program, field, number) {
            words.push(wrong_field(program, at, field, number));
        }
    }
    match row.kind {
        _ if !words.is_empty() => {}
        CHANNEL => words.extend(wrong_for_role(row)),
        MONADIC => words.extend(wrong_for_operator(program, row)),
        _ => {}
    }
    words
}

/// Words about a declaration after the root.
fn late_declaration(program: &Program) -> String {
    format!(
        "a declaration stands after row {}, which is none; expected declarations first",
        program.declarations
    )
}

/// Whether a field's number is right; references are another refusal.
fn fits(program: &Program, field: Field, number: i32) -> bool {
    let named = program.declaration(number);
    match field {
        Field::Unused => number == 0,
        Field::Within(_, least, most) => (least..=most).contains(&number),
        Field::Variable => named.is_some_and(|row| row.kind == VARIABLE),
        Field::Channel(one, other) => {
            named.is_some_and(|row| row.kind == CHANNEL && (row.b() == one || row.b() == other))
        }
        _ => true,
    }
}

/// The name of a field; of a text, which has no fields, what it is.
fn field_name(program: &Program, at: usize, field: Field) -> String {
    match (&program.origin, field.word()) {
        (Some(_), "capacity") => "the capacity".to_string(),
        (Some(_), word) => format!("the number of {word}"),
        (None, word) => format!("field {} ({word})", FIELD_NAMES[at]),
    }
}

/// Words about a wrong field: what stands there, what was expected, what is named.
fn wrong_field(program: &Program, at: usize, field: Field, number: i32) -> String {
    let mut words = format!(
        "{} is {number}; expected {}",
        field_name(program, at, field),
        field.expected()
    );
    if matches!(field, Field::Variable | Field::Channel(..)) {
        words += &match program.row(number) {
            Some(row) => format!("; row {number} is {row}"),
            None => format!("; there is no row {number}"),
        };
    }
    words
}

/// Words about an operand of GIVEN that is a row of another kind than an element.
fn wrong_for_operator(program: &Program, row: &Row) -> Option<String> {
    let operand = program.row(row.b())?;
    (row.a() == GIVEN && operand.kind != ELEMENT).then(|| {
        format!(
            "field b (operand) is {}; expected an element (kind 11) for operator 2, GIVEN; \
             row {} is {operand}",
            row.b(),
            row.b()
        )
    })
}

/// Words about a channel whose elements or capacity do not fit its role.
fn wrong_for_role(row: &Row) -> Vec<String> {
    let mut words = Vec::new();
    let (elements, role, capacity) = (row.a(), row.b(), row.c());
    if role != INNER && elements != 1 {
        words.push(format!(
            "field a (elements) is {elements}; expected 1 for role {role} ({})",
            if role == FROM_HOST {
                "from the host"
            } else {
                "to the host"
            }
        ));
    }
    if role != TO_HOST && capacity != 0 {
        words.push(format!(
            "field c (capacity) is {capacity}; expected 0 for role {role}: only a channel to the \
             host has a capacity"
        ));
    }
    words
}
