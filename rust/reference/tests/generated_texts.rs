//! Texts of generated tables: read back to the top-down form, or refused where they are damaged.

mod common;

use common::{assert_enough, Tally};
use reference::generate::occam::{
    damaged_line, damaged_names, some_text, top_down, with_many_rows, Expected,
};
use reference::generate::{generate, Aim};
use reference::printing::split_input;
use reference::program::Program;
use reference::table::Row;
use reference::text::TEXT_BYTES;
use reference::{check_bytes, read_text, Refusal};

/// The rows of accepted tables: small ones, larger ones, and some of unusual shapes.
fn tables() -> impl Iterator<Item = (u64, Vec<Row>)> {
    let small = (0..800).map(|seed| (seed, generate(seed, true, Some(Aim::Accepted))));
    let larger = (0..300).map(|seed| (seed, generate(seed, false, Some(Aim::Accepted))));
    let shapes = (0..100).map(|seed| (seed, generate(seed, seed % 2 == 0, Some(Aim::Shape))));
    let inputs = small.chain(larger).chain(shapes);
    inputs.filter_map(|(seed, input)| {
        let (table, _) = split_input(&input.bytes);
        check_bytes(table).ok().map(|program| (seed, program.rows))
    })
}

/// The number and place of a refusal.
fn told(refusal: &Refusal) -> (u8, u32) {
    (refusal.number, refusal.place)
}

#[test]
fn texts_are_read_back_to_the_top_down_form() {
    let mut found = Tally::new();
    for (seed, rows) in tables() {
        let wanted = top_down(&rows);
        assert_eq!(top_down(&wanted), wanted, "seed {seed}");
        assert!(Program::check(wanted.clone()).is_ok(), "seed {seed}");
        for spelling in 0..5 {
            let text = some_text(&rows, 5 * seed + spelling);
            let read = read_text(&text);
            if text.len() > TEXT_BYTES {
                assert_eq!(read, Err(Refusal::new(12, 0)));
                *found.entry("too long").or_insert(0) += 1;
                continue;
            }
            let shown = String::from_utf8_lossy(&text);
            assert_eq!(read.as_ref(), Ok(&wanted), "seed {seed}\n{shown}");
            *found.entry("read").or_insert(0) += 1;
        }
    }
    assert_enough(&found, &[("read", 5_000), ("too long", 20)]);
}

/// Compares the answer to a text with the one aimed at; tells the sort of answer.
fn compare(seed: u64, (text, expected): Expected) -> &'static str {
    let shown = String::from_utf8_lossy(&text);
    let read = read_text(&text).map(|rows| rows.len());
    assert_eq!(read, expected, "seed {seed}\n{shown}");
    let lines = text.iter().filter(|&&byte| byte == b'\n').count() as u32;
    match expected.as_ref().map_err(told) {
        Ok(_) => "read",
        Err((3, _)) => "3",
        Err((12, 0)) => "12 of length",
        Err((12, 1)) => "12 at the first line",
        Err((12, place)) if place > lines => "12 after the last line",
        Err((12, place)) if place == lines => "12 at the last line",
        Err((12, _)) => "12 inside",
        Err((13, place)) if place == lines => "13 at the last line",
        Err(_) => "13 before the last line",
    }
}

#[test]
fn damaged_texts_are_refused_where_they_are_damaged() {
    let mut found = Tally::new();
    for (seed, rows) in tables() {
        for number in 0..6 {
            let seed = 11 * seed + number;
            let sorts = [
                compare(seed, damaged_line(&rows, seed)),
                compare(seed, damaged_names(&rows, seed)),
            ];
            for sort in sorts {
                *found.entry(sort).or_insert(0) += 1;
            }
        }
        let sort = compare(seed, with_many_rows(&rows, seed));
        *found.entry(sort).or_insert(0) += 1;
    }
    let least = [
        ("12 of length", 20),
        ("12 at the first line", 300),
        ("12 inside", 3_000),
        ("12 at the last line", 300),
        ("12 after the last line", 300),
        ("13 before the last line", 3_000),
        ("13 at the last line", 300),
        ("3", 300),
        ("read", 300),
    ];
    assert_enough(&found, &least);
}
