//! Damage to good tables: one function for each refusal of rows (4, 5, 6, 14) and for mutations.

use super::random::Random;
use crate::kinds::{
    declaration_count, fields_of, Field, ALT, ASSIGNMENT, BLOCK, CHANNEL, CHOICE, DYADIC, ELEMENT,
    FROM_HOST, GIVEN, GUARD, IF, INNER, INPUT, LITERAL, MEMBER, MONADIC, OPTION, OUTPUT, PAR,
    PROCESS, SEQ, SKIP, TO_HOST, VARIABLE, WHILE,
};
use crate::table::Row;

/// Sets field 0 (a), 1 (b) or 2 (c) of a row.
fn set_field(row: &mut Row, field: usize, number: i32) {
    match field {
        0 => row.a = number,
        1 => row.b = number,
        _ => row.c = number,
    }
}

/// A row and field for which `fits` holds.
fn pick_field(
    random: &mut Random,
    rows: &[Row],
    fits: impl Fn(Field) -> bool,
) -> Option<(usize, usize)> {
    let mut found = Vec::new();
    for (index, row) in rows.iter().enumerate() {
        for (number, field) in fields_of(row.kind).into_iter().flatten().enumerate() {
            if fits(field) {
                found.push((index, number));
            }
        }
    }
    (!found.is_empty()).then(|| random.pick(&found))
}

/// Damages one row in a way that is refused as 4.
pub fn damage_kinds(random: &mut Random, rows: &mut Vec<Row>) {
    let count = rows.len();
    match random.below(7) {
        0 => {
            let kinds = [
                0,
                3,
                9,
                14,
                19,
                25,
                29,
                36,
                38,
                39,
                44,
                -1,
                100,
                i32::MAX,
                i32::MIN,
            ];
            rows[random.below(count)].kind = random.pick(&kinds);
        }
        1 => late_declaration(random, rows),
        2 => {
            if let Some((row, field)) =
                pick_field(random, rows, |field| matches!(field, Field::Unused))
            {
                let number = random.pick(&[1, -1, 7, i32::MAX]);
                set_field(&mut rows[row], field, number);
            }
        }
        3 => {
            if let Some((row, field)) =
                pick_field(random, rows, |field| matches!(field, Field::Within(..)))
            {
                let number = random.pick(&[-1, 0, 2, 3, 16, 65, 257, i32::MAX]);
                set_field(&mut rows[row], field, number);
            }
        }
        4 => damage_channel(random, rows),
        5 => damage_given(random, rows),
        _ => damage_name(random, rows),
    }
}

/// Adds a declaration after the root, or makes a later row one.
fn late_declaration(random: &mut Random, rows: &mut Vec<Row>) {
    let declaration = match random.chance(50) {
        true => Row::new(VARIABLE, 1, 0, 0),
        false => Row::new(CHANNEL, 1, INNER, 0),
    };
    if random.chance(50) {
        rows.push(declaration);
    } else {
        let row = random.below(rows.len());
        rows[row] = declaration;
    }
    if random.chance(30) {
        let name = rows.len() as i32 - 1;
        if let Some((row, field)) =
            pick_field(random, rows, |field| matches!(field, Field::VariableName))
        {
            set_field(&mut rows[row], field, name);
        }
    }
}

/// Makes a channel's elements, role or capacity wrong, mostly for its role only.
fn damage_channel(random: &mut Random, rows: &mut [Row]) {
    let Some(row) = random.pick_where(rows.len(), |row| rows[row].kind == CHANNEL) else {
        return;
    };
    let channel = &mut rows[row];
    match channel.b {
        FROM_HOST | TO_HOST if random.chance(40) => channel.a = random.pick(&[0, 2, 64]),
        TO_HOST => channel.c = random.pick(&[-1, 257]),
        _ if random.chance(50) => channel.c = random.pick(&[1, 4, -1]),
        _ => channel.b = random.pick(&[3, -1]),
    }
}

/// Makes some expression GIVEN of any row, or of none (which is refused as 5).
fn damage_given(random: &mut Random, rows: &mut [Row]) {
    let is_operation = |row: usize| matches!(rows[row].kind, MONADIC | DYADIC | ELEMENT);
    let Some(row) = random.pick_where(rows.len(), is_operation) else {
        return;
    };
    let any = random.below(rows.len()) as i32;
    let operand = random.pick(&[any, any, row as i32, row as i32 + 1, -1, rows.len() as i32]);
    rows[row] = Row::new(MONADIC, GIVEN, operand, 0);
}

/// Makes a name no declaration of the sort and role given.
fn damage_name(random: &mut Random, rows: &mut [Row]) {
    let is_name = |field| matches!(field, Field::VariableName | Field::ChannelName(..));
    if let Some((row, field)) = pick_field(random, rows, is_name) {
        let any = random.below(rows.len()) as i32;
        let declared = random.below(declaration_count(rows)) as i32;
        let number = random.pick(&[
            -1,
            rows.len() as i32,
            row as i32,
            any,
            declared,
            declared,
            i32::MIN,
        ]);
        set_field(&mut rows[row], field, number);
    }
}

/// Damages references in a way that is refused as 5.
pub fn damage_references(random: &mut Random, rows: &mut Vec<Row>) {
    let refers = |field| matches!(field, Field::Refers(_) | Field::RefersOrNone(_));
    let root = declaration_count(rows);
    match random.below(8) {
        0 => rows.push(Row::new(LITERAL, 1, 0, 0)),
        1 => rows.push(Row::new(SKIP, 0, 0, 0)),
        2 => rows.truncate(root + random.below(2) * random.below(rows.len() - root)),
        3 => {
            if let Some(row) = rows.get_mut(root) {
                *row = random.pick(&[
                    Row::new(LITERAL, 5, 0, 0),
                    Row::new(MEMBER, root as i32 + 1, -1, 0),
                    Row::new(GUARD, root as i32 + 1, root as i32 + 2, 0),
                ]);
            }
        }
        4 => guard_that_is_skip(random, rows),
        _ => {
            if let Some((row, field)) = pick_field(random, rows, refers) {
                let count = rows.len();
                let any = random.below(count) as i32;
                let lower = random.below(row + 1) as i32;
                let higher = (row + random.below(count - row)) as i32;
                let number = random.pick(&[
                    -1,
                    -2,
                    count as i32,
                    row as i32,
                    lower,
                    higher,
                    higher,
                    any,
                    0,
                    i32::MAX,
                    i32::MIN,
                ]);
                set_field(&mut rows[row], field, number);
            }
        }
    }
}

/// Makes an option's guard a bare SKIP: adds such an ALT if there is none.
fn guard_that_is_skip(random: &mut Random, rows: &mut Vec<Row>) {
    match random.pick_where(rows.len(), |row| rows[row].kind == OPTION) {
        Some(option) => {
            rows[option].c = rows.len() as i32;
            rows.push(Row::new(SKIP, 0, 0, 0));
        }
        None => {
            rows.truncate(declaration_count(rows));
            let root = rows.len() as i32;
            rows.push(Row::new(ALT, root + 1, 0, 0));
            rows.push(Row::new(OPTION, root + 2, -1, root + 3));
            rows.extend([Row::new(SKIP, 0, 0, 0); 2]);
        }
    }
}

/// Adds declarations before all others, so that a limit is passed: refused as 6.
pub fn damage_limits(random: &mut Random, rows: &mut Vec<Row>) {
    let (kind_of_row, count) = match random.below(7) {
        0 => (Row::new(VARIABLE, 64, 0, 0), random.between(4, 5)),
        1 => (Row::new(VARIABLE, 52, 0, 0), 5),
        2 => (Row::new(CHANNEL, 64, INNER, 0), random.between(4, 5)),
        3 => (Row::new(CHANNEL, 37, INNER, 0), 7),
        4 => (Row::new(CHANNEL, 1, FROM_HOST, 0), random.between(8, 10)),
        5 => (Row::new(CHANNEL, 1, TO_HOST, 0), random.between(8, 10)),
        _ => (Row::new(CHANNEL, 1, TO_HOST, 256), random.between(4, 5)),
    };
    let place = random.below(declaration_count(rows) + 1);
    for _ in 0..count {
        insert_declaration(rows, place, kind_of_row);
    }
}

/// Gives a table a block as root, a second block of a name, or a name outside its block: refused
/// as 14.
pub fn damage_blocks(random: &mut Random, rows: &mut Vec<Row>) {
    if !rows.iter().any(|row| row.kind == VARIABLE) {
        insert_declaration(rows, 0, Row::new(VARIABLE, 1, 0, 0));
    }
    let block = random.pick_where(rows.len(), |row| rows[row].kind == BLOCK);
    let local = block.map(|row| rows[row].a);
    match (random.below(8), local) {
        (0, _) => {
            let variable = some_variable(random, rows);
            wrap(rows, declaration_count(rows), variable);
        }
        (1..=3, Some(local)) => wrap_some_process(random, rows, local),
        (4..=6, Some(local)) => name_anywhere(random, rows, local),
        _ => {
            let variable = some_variable(random, rows);
            wrap_some_process(random, rows, variable);
        }
    }
}

/// Some declared variable.
fn some_variable(random: &mut Random, rows: &[Row]) -> i32 {
    let variable = random.pick_where(rows.len(), |row| rows[row].kind == VARIABLE);
    variable.unwrap_or(0) as i32
}

/// Makes some element or assignment name this variable.
fn name_anywhere(random: &mut Random, rows: &mut [Row], variable: i32) {
    let names = |row: usize| matches!(rows[row].kind, ELEMENT | ASSIGNMENT);
    if let Some(row) = random.pick_where(rows.len(), names) {
        rows[row].a = variable;
    }
}

/// Puts some process, not the root, into a block of this variable.
fn wrap_some_process(random: &mut Random, rows: &mut Vec<Row>, variable: i32) {
    let root = declaration_count(rows);
    let process = |row: usize| row > root && PROCESS.contains(&rows[row].kind);
    if let Some(row) = random.pick_where(rows.len(), process) {
        wrap(rows, row, variable);
    }
}

/// Puts the process in a row into a block of this variable, which takes its row.
fn wrap(rows: &mut Vec<Row>, place: usize, variable: i32) {
    for row in rows.iter_mut() {
        for (number, field) in fields_of(row.kind).into_iter().flatten().enumerate() {
            let old = row.fields()[number];
            let refers = matches!(field, Field::Refers(_) | Field::RefersOrNone(_));
            if refers && old > place as i32 {
                set_field(row, number, old.saturating_add(1));
            }
        }
    }
    rows.insert(place, Row::new(BLOCK, variable, place as i32 + 1, 0));
}

/// Inserts a declaration at a row, moving all names and references.
pub fn insert_declaration(rows: &mut Vec<Row>, place: usize, declaration: Row) {
    for row in rows.iter_mut() {
        for (number, field) in fields_of(row.kind).into_iter().flatten().enumerate() {
            let old = row.fields()[number];
            let moves = match field {
                Field::VariableName | Field::ChannelName(..) => old >= place as i32,
                Field::Refers(_) | Field::RefersOrNone(_) => old >= 0,
                _ => false,
            };
            if moves {
                set_field(row, number, old.saturating_add(1));
            }
        }
    }
    rows.insert(place.min(rows.len()), declaration);
}

/// Changes one number somewhere, swaps two rows, or repeats one.
pub fn mutate_rows(random: &mut Random, rows: &mut Vec<Row>) {
    let row = random.below(rows.len());
    match random.below(8) {
        0 => {
            let kinds = [
                LITERAL, ELEMENT, MONADIC, DYADIC, SKIP, INPUT, OUTPUT, SEQ, PAR, IF, WHILE, ALT,
                BLOCK, MEMBER, CHOICE, OPTION, GUARD,
            ];
            rows[row].kind = random.pick(&kinds);
        }
        1 => {
            let other = random.below(rows.len());
            rows.swap(row, other);
        }
        2 => rows.push(rows[row]),
        3 => {
            rows.remove(row);
        }
        _ => {
            let field = random.below(3);
            let old = rows[row].fields()[field];
            let any = random.below(rows.len()) as i32;
            let near = [
                old.wrapping_add(1),
                old.wrapping_sub(1),
                0,
                -1,
                any,
                old.wrapping_neg(),
            ];
            let number = random.pick(&near);
            set_field(&mut rows[row], field, number);
        }
    }
}
