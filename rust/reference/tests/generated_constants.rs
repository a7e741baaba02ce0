//! Generated subscripts: constants of all sorts wherever a subscript counts, and what comes near to
//! a constant.

mod common;
use common::{assert_enough, Tally};
use reference::check_bytes;
use reference::constants::{constants_of, Constant};
use reference::generate::{generate, Aim};
use reference::kinds::{
    rows_referred_to, ASSIGNMENT, DYADIC, ELEMENT, GIVEN, GUARD, INPUT, MONADIC, OPTION, OUTPUT,
};
use reference::printing::split_input;
use reference::program::Program;
use reference::values::dyadic;
use std::collections::BTreeMap;

/// For each row with a subscript: where it stands.
fn places(program: &Program) -> BTreeMap<usize, &'static str> {
    let mut places = BTreeMap::new();
    for (index, row) in program.rows.iter().enumerate() {
        let place = match row.kind {
            ELEMENT => "element",
            ASSIGNMENT => "assignment",
            INPUT => "input",
            OUTPUT => "output",
            _ => continue,
        };
        places.insert(index, place);
    }
    for row in &program.rows {
        let (named, place) = match row.kind {
            MONADIC if row.a == GIVEN => (row.b, "GIVEN"),
            INPUT => (row.c, "target"),
            OPTION => (row.c, "guard"),
            GUARD => (row.b, "guard"),
            _ => continue,
        };
        places.entry(named as usize).and_modify(|old| *old = place);
    }
    places
}

/// An expression's rows.
fn rows_of(program: &Program, row: usize) -> Vec<usize> {
    let beneath = rows_referred_to(&program.rows[row]).flat_map(|row| rows_of(program, row));
    std::iter::once(row).chain(beneath).collect()
}

/// How a row of a constant finds its value.
fn way(program: &Program, constants: &[Constant], row: usize) -> Option<&'static str> {
    let row = &program.rows[row];
    let (operator, left) = (row.a, constants[row.b as usize]?.ok()?);
    let right = constants[row.c as usize]?;
    match operator {
        14 | 15 if right.is_err() && dyadic(operator, left, || right).is_ok() => {
            Some("short circuit")
        }
        5..=7 if right.is_ok() && dyadic(operator - 5, left, || right).is_err() => Some("wraps"),
        _ => None,
    }
}

/// Whether an expression that is no constant has the same value in every state, or GIVEN's.
fn is_nearly_constant(program: &Program, constants: &[Constant], row: usize) -> bool {
    let row = &program.rows[row];
    let first = || constants[row.b as usize];
    match (row.kind, row.a) {
        (MONADIC, GIVEN) => true,
        (DYADIC, 2 | 14) => first() == Some(Ok(0)),
        (DYADIC, 15) => first() == Some(Ok(1)),
        _ => false,
    }
}

/// What there is to see of a row's subscript; nothing of a literal.
fn sorts(program: &Program, constants: &[Constant], named: usize) -> Vec<&'static str> {
    let subscript = program.rows[named].b as usize;
    let rows = rows_of(program, subscript);
    let mut found = Vec::new();
    match constants[subscript] {
        _ if rows.len() == 1 => return found,
        None if is_nearly_constant(program, constants, subscript) => {
            return vec!["nearly constant"];
        }
        None => return found,
        Some(Err(_)) => found.push("no value"),
        Some(Ok(value)) => found.push(match program.part_named_by(named).at(value) {
            Some(_) => "inside",
            None => "outside",
        }),
    }
    let dyadics = rows.iter().filter(|&&row| program.rows[row].kind == DYADIC);
    found.extend(dyadics.filter_map(|&row| way(program, constants, row)));
    found.extend((rows.len() > 3).then_some("two deep"));
    found
}

/// How many tables of these seeds have a subscript of each sort, and constants in each place.
fn tally(small: bool, seeds: u64) -> Tally {
    let mut tally = Tally::new();
    for seed in 0..seeds {
        let aim = [Aim::Accepted, Aim::WithoutAlt][(seed % 2) as usize];
        let input = generate(seed, small, Some(aim));
        let Ok(program) = check_bytes(split_input(&input.bytes).0) else {
            continue;
        };
        let constants = constants_of(&program.rows);
        let mut seen = Vec::new();
        for (named, place) in places(&program) {
            let sorts = sorts(&program, &constants, named);
            seen.extend(sorts.contains(&"inside").then_some(place));
            seen.extend(sorts);
        }
        seen.sort_unstable();
        seen.dedup();
        seen.into_iter()
            .for_each(|sort| *tally.entry(sort).or_insert(0) += 1);
    }
    tally
}

#[test]
fn subscripts_of_large_tables_are_of_all_sorts() {
    let least = [
        ("GIVEN", 90),
        ("assignment", 180),
        ("element", 200),
        ("guard", 25),
        ("input", 90),
        ("output", 110),
        ("target", 130),
        ("outside", 40),
        ("no value", 15),
        ("nearly constant", 80),
        ("short circuit", 100),
        ("two deep", 220),
        ("wraps", 150),
    ];
    assert_enough(&tally(false, 600), &least);
}

#[test]
fn subscripts_of_small_tables_are_of_all_sorts() {
    let least = [
        ("GIVEN", 20),
        ("assignment", 140),
        ("element", 50),
        ("guard", 4),
        ("input", 40),
        ("output", 50),
        ("target", 50),
        ("outside", 60),
        ("no value", 15),
        ("nearly constant", 30),
        ("short circuit", 25),
        ("two deep", 120),
        ("wraps", 60),
    ];
    assert_enough(&tally(true, 1_200), &least);
}
