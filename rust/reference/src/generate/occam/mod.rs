//! Texts of tables (request 02): in many spacings and bracketings, and damaged at a known line.

pub mod largest;
mod lines;
mod names;
mod spelling;
mod spoiling;
mod top_down;
mod writing;

pub use top_down::top_down;

use super::random::Random;
use super::{generate, Aim, SMALL_BYTES};
use crate::answer::check_bytes;
use crate::kinds::{CHANNEL, FROM_HOST, SKIP};
use crate::printing::split_input;
use crate::refusal::Refusal;
use crate::table::{Row, ROWS};
use crate::text::TEXT_BYTES;
use lines::{header_count, WrittenLine};
use spelling::spelled;
use writing::written;

/// A text, and what reading it should answer: the count of its rows, or a refusal.
pub type Expected = (Vec<u8>, Result<usize, Refusal>);

/// An input of the separate program from a seed, and its flags: an occam text, the line `=` and a
/// sheet, to be run, checked or read. About one in three is damaged, and a text without its last line
/// feed then runs into the line `=`.
pub fn text_input(seed: u64, small: bool) -> (Vec<u8>, String) {
    let input = generate(seed, small, Some(Aim::Accepted));
    let (table, sheet) = split_input(&input.bytes);
    let smallest = |_| vec![Row::new(SKIP, 0, 0, 0)];
    let rows = check_bytes(table).map_or_else(smallest, |program| program.rows);
    let random = &mut Random::new(seed);
    let (mut text, flags) = match random.below(9) {
        0..=2 => {
            let flags = format!("--text {}", input.flags());
            (some_text(&rows, seed), flags.trim_end().to_string())
        }
        3 => (some_text(&rows, seed), "--check --text".to_string()),
        4..=5 => (some_text(&rows, seed), "--read".to_string()),
        6..=7 => (damaged_line(&rows, seed).0, "--read".to_string()),
        _ => (damaged_names(&rows, seed).0, "--read".to_string()),
    };
    let mut rows = top_down(&rows);
    if small && text.len() > SMALL_BYTES {
        text = b"SKIP\n".to_vec();
        rows.clear();
    }
    text.extend(b"=\n");
    text.extend(with_head_of(&rows, sheet));
    (text, flags)
}

/// A sheet with the head that these rows ask for; one empty line if they ask for no readings.
fn with_head_of(rows: &[Row], sheet: &[u8]) -> Vec<u8> {
    let from_host = |row: &usize| rows[*row].kind == CHANNEL && rows[*row].b == FROM_HOST;
    let channels = (0..rows.len()).filter(from_host);
    let names: Vec<String> = channels.map(|row| row.to_string()).collect();
    if names.is_empty() {
        return b"\n".to_vec();
    }
    let head = names.join(",") + "\n";
    let lines = sheet.split_inclusive(|&byte| byte == b'\n');
    let values: Vec<&[u8]> = lines.skip(1).collect();
    [head.as_bytes(), &values.concat()].concat()
}

/// A text of an accepted table's rows, spelled as the seed says.
pub fn some_text(rows: &[Row], seed: u64) -> Vec<u8> {
    let random = &mut Random::new(seed);
    let lines = written(random, rows, 0);
    bytes_of(random, &lines)
}

/// A text of an accepted table's rows that is damaged so that it is refused as 12. Some names may
/// not be in order and there may be too many rows: 12 goes before both.
pub fn damaged_line(rows: &[Row], seed: u64) -> Expected {
    let random = &mut Random::new(seed);
    let twists = random.pick(&[0, 0, 1, 3]);
    let mut lines = written(random, rows, twists);
    if random.chance(5) {
        add_declarations(random, &mut lines, ROWS);
    }
    let (bytes, place) = spoiling::spoiled(random, &lines);
    within_limit(bytes, Err(Refusal::new(12, place)))
}

/// A text of an accepted table's rows with some names not in order, refused as 13. There may be too
/// many rows: 13 goes before 3.
pub fn damaged_names(rows: &[Row], seed: u64) -> Expected {
    let random = &mut Random::new(seed);
    let twists = random.between(1, 3);
    let mut lines = written(random, rows, twists);
    if random.chance(30) || !lines.iter().any(|line| line.misnamed) {
        declare_again(random, &mut lines);
    }
    if random.chance(5) {
        add_declarations(random, &mut lines, ROWS);
    }
    let lowest = lines.iter().take_while(|line| !line.misnamed).count() + 1;
    let bytes = bytes_of(random, &lines);
    within_limit(bytes, Err(Refusal::new(13, lowest)))
}

/// A text of an accepted table's rows with further declarations, about as many as there can be.
pub fn with_many_rows(rows: &[Row], seed: u64) -> Expected {
    let random = &mut Random::new(seed);
    let mut lines = written(random, rows, 0);
    let count = random.between(ROWS - 3, ROWS + 4).max(rows.len());
    add_declarations(random, &mut lines, count - rows.len());
    let bytes = bytes_of(random, &lines);
    let answer = match count > ROWS {
        true => Err(Refusal::new(3, ROWS)),
        false => Ok(count),
    };
    within_limit(bytes, answer)
}

/// The expected answer, unless the text is too long.
fn within_limit(bytes: Vec<u8>, answer: Result<usize, Refusal>) -> Expected {
    let answer = match bytes.len() > TEXT_BYTES {
        true => Err(Refusal::new(12, 0)),
        false => answer,
    };
    (bytes, answer)
}

/// The bytes of all lines.
fn bytes_of(random: &mut Random, lines: &[WrittenLine]) -> Vec<u8> {
    let spelled = lines.iter().map(|line| spelled(random, line));
    spelled.collect::<Vec<_>>().concat()
}

/// Declares a name of the first lines again, or a new one two times.
fn declare_again(random: &mut Random, lines: &mut Vec<WrittenLine>) {
    if header_count(lines) == 0 {
        lines.insert(0, WrittenLine::declaration("zz", 1));
    }
    let headers = header_count(lines);
    let declared = random.below(headers);
    let mut again = match random.below(3) {
        0 => WrittenLine::declaration(lines[declared].name(), 1),
        1 => WrittenLine::declaration(lines[declared].name(), 7),
        _ => WrittenLine::host_input(lines[declared].name()),
    };
    again.misnamed = true;
    lines.insert(random.between(declared + 1, headers), again);
}

/// Puts so many declarations of new names together among the first lines.
fn add_declarations(random: &mut Random, lines: &mut Vec<WrittenLine>, count: usize) {
    let place = random.between(0, header_count(lines));
    let new = (0..count).map(|number| WrittenLine::declaration(&format!("zz{number}"), 1));
    lines.splice(place..place, new);
}
