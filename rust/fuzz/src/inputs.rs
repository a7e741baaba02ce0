//! Inputs from seeds: the separate program's generated ones, tables and texts, in several versions
//! each.

use crate::random::Random;
use crate::Given;
use reference::generate::occam::{
    damaged_line, damaged_names, some_text, text_input, with_many_rows,
};
use reference::generate::{generate, Aim, Parts};
use reference::printing::split_input;
use reference::table::{rows_of_bytes, Row};
use reference::{check_bytes, BUFFER_LENGTHS};

/// How many versions each generated input has.
pub const VERSIONS: u64 = 8;

/// The versions of the input of a seed.
pub fn versions(seed: u64) -> impl Iterator<Item = Given> {
    let base = base(seed);
    let mut random = Random(seed);
    (0..VERSIONS).map(move |number| version(&mut random, number, &base))
}

/// The generated input of a seed: a mix, with more runs, odd shapes, overlong tables and wide PARs.
fn base(seed: u64) -> Parts {
    let aim = match seed % 16 {
        0 => Some(Aim::Shape),
        1..=3 => Some(Aim::Accepted),
        4 => Some(Aim::Refusal(3)),
        5 => Some(Aim::Refusal([6, 7, 8, 9, 14][(seed / 16 % 5) as usize])),
        6 => Some(Aim::Mutated),
        7..=8 => Some(Aim::Pairs),
        _ => None,
    };
    let large = match seed % 16 {
        0 | 3 | 4 | 7 => true,
        _ => seed.is_multiple_of(7),
    };
    generate(seed, !large, aim).parts()
}

/// A version of an input: as it is, with another budget and choices, or damaged.
fn version(random: &mut Random, number: u64, base: &Parts) -> Given {
    let (mut table, mut sheet, mut choices, mut budget) = base.clone();
    match number {
        0 => {}
        1..=3 => {
            choices = random.choices();
            budget = budget.min(random.pick(&[5, 60, 700, 3_000]));
        }
        4 => budget = random.pick(&[0, 1, 65_536, 65_537, 131_072, u64::from(u32::MAX)]),
        5 => random.damage(&mut table),
        6 => (0..=random.below(2)).for_each(|_| random.change_field(&mut table)),
        _ => random.damage(&mut sheet),
    }
    Given {
        lengths: some_lengths(random),
        numbers: other_numbers(random, &table),
        budget: u32::try_from(budget).unwrap_or(u32::MAX),
        table,
        sheet,
        choices,
    }
}

/// The versions of the text of a seed.
pub fn text_versions(seed: u64) -> impl Iterator<Item = Given> {
    let small = !seed.is_multiple_of(6);
    let (rows, parts) = rows_for_a_text(seed, small);
    let mut random = Random(seed);
    (0..VERSIONS).map(move |number| {
        let (text, sheet) = match number {
            0 => whole_input(seed, small),
            _ => (
                text_version(&mut random, number, &rows, seed),
                parts.1.clone(),
            ),
        };
        let (choices, budget) = match number {
            1 => (parts.2.clone(), random.pick(&[0, 1, 65_537, u32::MAX])),
            _ => (random.choices(), random.pick(&[60, 700, 3_000])),
        };
        Given {
            lengths: some_lengths(&mut random),
            ..Given::new(&text, &sheet, choices, budget)
        }
    })
}

/// Rows that a text can be written of, with what they were generated with: accepted ones, and at
/// times ones of right form that are refused by a limit, a clash or a block.
fn rows_for_a_text(seed: u64, small: bool) -> (Vec<Row>, Parts) {
    let aim = match seed % 4 {
        0 => Aim::Refusal([6, 7, 8, 9, 14][(seed / 4 % 5) as usize]),
        1 if seed.is_multiple_of(5) => Aim::Shape,
        _ => Aim::Accepted,
    };
    let parts = generate(seed, small, Some(aim)).parts();
    let has_form = check_bytes(&parts.0).map_or_else(|refusal| refusal.number >= 6, |_| true);
    let rows = rows_of_bytes(&parts.0).ok().filter(|_| has_form);
    (rows.unwrap_or_else(|| vec![Row::new(21, 0, 0, 0)]), parts)
}

/// The text and the sheet of the separate program's generator.
fn whole_input(seed: u64, small: bool) -> (Vec<u8>, Vec<u8>) {
    let (input, _) = text_input(seed, small);
    let (text, sheet) = split_input(&input);
    (text.to_vec(), sheet.to_vec())
}

/// A version of a text of these rows: in some spelling, or damaged.
fn text_version(random: &mut Random, number: u64, rows: &[Row], seed: u64) -> Vec<u8> {
    let mut text = some_text(rows, VERSIONS * seed + number);
    match number {
        1 | 2 => {}
        3 => return damaged_line(rows, seed).0,
        4 => return damaged_names(rows, seed).0,
        5 if seed.is_multiple_of(4) => return with_many_rows(rows, seed).0,
        5 => random.damage_text(&mut text),
        6 => (0..=random.below(4)).for_each(|_| random.damage_text(&mut text)),
        _ => {
            let size = random.pick(&[
                "[65]INT zz_1:\n",
                "[0]CHAN zz_1:\n",
                "HOSTOUT 257 zz_1:\n",
                "[64]INT zz_1:\n",
            ]);
            text.splice(0..0, size.bytes());
        }
    }
    text
}

/// Buffer lengths: mostly longer than the limits, at times one shorter or none at all.
fn some_lengths(random: &mut Random) -> [usize; 7] {
    let mut lengths = BUFFER_LENGTHS;
    for length in &mut lengths {
        *length += random.below(3);
    }
    if random.below(12) == 0 {
        let short = random.below(lengths.len());
        lengths[short] = match random.below(3) {
            0 => 0,
            _ => BUFFER_LENGTHS[short] - 1,
        };
    }
    lengths
}

/// At times rows lent as numbers that are cut off, or too many.
fn other_numbers(random: &mut Random, table: &[u8]) -> Option<Vec<i32>> {
    let rows = rows_of_bytes(table).unwrap_or_default();
    let each = rows.iter().flat_map(|row| [row.kind, row.a, row.b, row.c]);
    let mut numbers: Vec<i32> = each.collect();
    match random.below(20) {
        0 => numbers.truncate(random.below(numbers.len() + 1)),
        1 => numbers.extend(vec![21; random.below(4_200)]),
        _ => return None,
    }
    Some(numbers)
}
