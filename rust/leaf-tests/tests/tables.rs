//! Tables: the verdict on bytes by the stages 2 to 6, on generated tables, whole and damaged.

mod common;

use common::{damage, Random};
use reference::check_bytes;
use reference::generate::{generate, Aim};

const BASES: u64 = 3_000;
const VERSIONS: usize = 40;
const UNTOUCHED: u32 = 4_000_000_000;

/// What the table was made to be.
fn aim(seed: u64) -> Option<Aim> {
    match seed % 10 {
        0..=3 => None,
        4 => Some(Aim::Shape),
        5 => Some(Aim::Accepted),
        6 => Some(Aim::Refusal(2 + (seed / 10 % 4) as u8)),
        7 => Some(Aim::Refusal(3)),
        _ => Some(Aim::Refusal(6)),
    }
}

/// Puts another number in a field of some row.
fn change_field(random: &mut Random, table: &mut Vec<u8>) {
    let stops: Vec<usize> = (0..table.len())
        .filter(|&place| matches!(table[place], b',' | b'\n'))
        .collect();
    if stops.len() < 2 {
        return;
    }
    let field = random.below(stops.len() - 1);
    let (start, end) = (stops[field] + 1, stops[field + 1]);
    let number = match random.below(4) {
        0 => random.whole(),
        1 => random.pick(&[
            1, 2, 10, 11, 12, 13, 20, 21, 22, 23, 24, 30, 31, 33, 40, 41, 43,
        ]),
        2 => random.below(70) as i32 - 1,
        _ => random.below(stops.len() / 4 + 2) as i32,
    };
    table.splice(start..end, number.to_string().into_bytes());
}

/// Puts another value in a literal, if there is one: the verdict stays as it was.
fn change_literal(random: &mut Random, table: &mut Vec<u8>) {
    let literals: Vec<usize> = (0..table.len())
        .filter(|&place| table[place..].starts_with(b"\n10,"))
        .collect();
    if literals.is_empty() {
        return;
    }
    let start = random.pick(&literals) + 4;
    let stop = |&byte: &u8| matches!(byte, b',' | b'\n');
    let length = table[start..].iter().position(stop).unwrap_or(0);
    let number = random.whole().to_string();
    table.splice(start..start + length, number.into_bytes());
}

/// Says a line of the table once more, or takes it out.
fn change_lines(random: &mut Random, table: &mut Vec<u8>) {
    let mut lines: Vec<&[u8]> = table.split_inclusive(|&byte| byte == b'\n').collect();
    if lines.is_empty() {
        return;
    }
    let place = random.below(lines.len());
    if random.below(2) == 0 {
        lines.insert(random.below(lines.len() + 1), lines[place]);
    } else {
        lines.remove(place);
    }
    *table = lines.concat();
}

/// The verdict of the separate program: a usage refusal comes after the stages 2 to 6.
fn expected(table: &[u8]) -> (u32, u32) {
    match check_bytes(table) {
        Err(refusal) if refusal.number < 7 => (u32::from(refusal.number), refusal.place),
        _ => (0, UNTOUCHED),
    }
}

#[test]
fn verdicts_agree() {
    let mut random = Random(6);
    let mut answers = [0; 7];
    for seed in 0..BASES {
        let aim = aim(seed);
        let large = seed % 8 == 4 || aim == Some(Aim::Refusal(3));
        let whole = generate(seed, !large, aim).parts().0;
        for version in 0..VERSIONS {
            let mut table = whole.clone();
            match version {
                0 => {}
                1..=7 => damage(&mut random, &mut table),
                8..=11 => change_lines(&mut random, &mut table),
                12..=25 => change_literal(&mut random, &mut table),
                _ => (0..=random.below(3)).for_each(|_| change_field(&mut random, &mut table)),
            }
            let mut place = [UNTOUCHED, UNTOUCHED];
            let answer = leaf_tests::check(&table, &mut place);
            let text = String::from_utf8_lossy(&table);
            assert_eq!((answer, place[0]), expected(&table), "{seed}:\n{text}");
            assert_eq!(place[1], UNTOUCHED);
            assert_eq!(leaf_tests::check(&table, &mut []), answer);
            answers[answer as usize] += 1;
        }
    }
    println!("accepted, and refused by 1 to 6: {answers:?}");
    assert_eq!(answers[1], 0);
    for number in [0, 2, 3, 4, 5, 6] {
        assert!(answers[number] > 500, "{number} seldom told: {answers:?}");
    }
}
