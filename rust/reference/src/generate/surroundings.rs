//! What is beside a generated table: the sheet, the line between, choices and budget.

use super::random::Random;
use super::text::mutate_bytes;
use super::Aim;
use crate::answer::BUDGET_LIMIT;
use crate::kinds::{CHANNEL, FROM_HOST};
use crate::sheet::first_line;
use crate::table::Row;

/// A sheet for the role 1 channels of the rows, with some absent readings.
pub fn some_sheet(random: &mut Random, rows: &[Row], small: bool) -> Vec<u8> {
    let from_host = |row: &Row| row.kind == CHANNEL && row.b == FROM_HOST;
    let channels: Vec<usize> = (0..rows.len())
        .filter(|&row| from_host(&rows[row]))
        .collect();
    let mut sheet = first_line(&channels) + "\n";
    if channels.is_empty() {
        return sheet.into_bytes();
    }
    let most = if small {
        5
    } else {
        random.pick(&[3, 8, 20, 128])
    };
    let absent = random.pick(&[0, 3, 10, 30]);
    for _ in 0..random.between(0, most) {
        let value = |_: &usize| match random.below(20) {
            _ if random.chance(absent) => String::new(),
            0 => random.pick(&[i32::MAX, i32::MIN, 0, -1]).to_string(),
            _ => (random.below(200) as i32 - 20).to_string(),
        };
        let values: Vec<String> = channels.iter().map(value).collect();
        sheet += &(values.join(",") + "\n");
    }
    sheet.into_bytes()
}

/// The runner's input of a table and a sheet; for refusals 2 and 10 at times without the line `=`.
pub fn join_input(random: &mut Random, table: Vec<u8>, sheet: Vec<u8>, aim: Aim) -> Vec<u8> {
    let may_lack = matches!(aim, Aim::Refusal(2 | 10));
    let between = match may_lack && random.chance(8) {
        true => random.pick(&["", "=\r\n", "= \n", "==\n", "\n=\n"]),
        false => "=\n",
    };
    let mut bytes = [table, between.as_bytes().to_vec(), sheet].concat();
    if may_lack && random.chance(4) {
        bytes.truncate(bytes.len() / 2);
    }
    if aim == Aim::Mutated && random.chance(60) {
        mutate_bytes(random, &mut bytes);
    }
    bytes
}

/// Some choices: often none.
pub fn some_choices(random: &mut Random) -> Vec<u16> {
    if random.chance(40) {
        return Vec::new();
    }
    let count = random.pick(&[1, 3, 8, 20, 60]);
    let bound = random.pick(&[2, 6, 65_536]);
    (0..count).map(|_| random.below(bound) as u16).collect()
}

/// A budget: mostly the greatest; for refusal 11 above it.
pub fn some_budget(random: &mut Random, aim: Aim) -> u64 {
    if aim == Aim::Refusal(11) || matches!(aim, Aim::Refusal(_)) && random.chance(10) {
        return random.pick(&[65_537, 70_000, 131_072, 1 << 32, (1 << 32) + 5, u64::MAX]);
    }
    match random.below(10) {
        0 => random.below(12) as u64,
        _ => BUDGET_LIMIT,
    }
}
