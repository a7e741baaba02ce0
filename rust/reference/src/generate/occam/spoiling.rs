//! Damage to a text that makes it refused as 12, with the line that should be told.

use super::super::random::Random;
use super::lines::{header_count, Opens, Stands, WrittenLine};
use super::spelling::spelled;

/// Bytes that no line of a text has.
const FOREIGN: &[u8] = b"\t\r,;.#'\"\\{}@~^|%$`\0\x0b\x7f\x80\xc3\xff";

/// Lines that are of the grammar nowhere.
const NO_LINES: [&str; 24] = [
    "TRUE",
    "SKIP SKIP",
    "x :=",
    ":= 1",
    "SEQ i = 0 FOR 3",
    "IF IF",
    "INT x",
    "INT x : SKIP",
    "[2]HOSTIN x:",
    "HOSTOUT x:",
    "- - 1",
    "1 AND 2 OR 3",
    "1 + 2 + 3",
    "NOT NOT 1",
    "NOT GIVEN x",
    "GIVEN (x)",
    "GIVEN 5",
    "x-5",
    "(x) := 1",
    "c ? (x)",
    "c ? x & 1",
    "a[0",
    "a[0][1] := 1",
    "x := 007",
];

/// Endings after which no line is of the grammar.
const NO_ENDS: [&str; 8] = [" ", ")", " ]", " SKIP", " :", " 7", " := ", " ("];

/// The bytes of these lines, damaged in one place, and the line for refusal 12.
pub fn spoiled(random: &mut Random, lines: &[WrittenLine]) -> (Vec<u8>, usize) {
    let at = random.below(lines.len());
    let mut spelled: Vec<Vec<u8>> = lines.iter().map(|line| spelled(random, line)).collect();
    let place = match random.below(12) {
        0..=4 => {
            spoil_line(random, &mut spelled[at]);
            at + 1
        }
        5 => {
            let line = random.pick(&["\n", "  \n", " \n"]);
            spelled.insert(at, line.as_bytes().to_vec());
            at + 1
        }
        6 => deeper(random, lines, &mut spelled, at),
        7 => closed_early(random, lines, &mut spelled),
        8 => of_another_sort(lines, &mut spelled, at),
        9 => one_too_many(random, lines, &mut spelled),
        10 => cut_short(random, lines, &mut spelled),
        _ => {
            spelled[lines.len() - 1].pop();
            return (spelled.concat(), lines.len());
        }
    };
    if place < spelled.len() && random.chance(30) {
        let later = random.between(place, spelled.len() - 1);
        spoil_line(random, &mut spelled[later]);
    }
    (spelled.concat(), place)
}

/// Damages one line so that it is of the grammar nowhere.
fn spoil_line(random: &mut Random, line: &mut Vec<u8>) {
    let spaces = line.iter().take_while(|&&byte| byte == b' ').count();
    let length = line.len() - 1;
    match random.below(5) {
        0 => {
            let foreign = random.pick(FOREIGN);
            line.insert(random.between(0, length), foreign);
        }
        1 => line.insert(0, b' '),
        2 => {
            let end = random.pick(&NO_ENDS).bytes();
            line.splice(length..length, end);
        }
        3 => {
            let first = random.pick(&["(", "[", "SKIP ", ": ", "* "]);
            line.splice(spaces..spaces, first.bytes());
        }
        _ => {
            let body = random.pick(&NO_LINES);
            line.splice(spaces..length, body.bytes());
        }
    }
}

/// Moves a line to a level deeper than any at which it could stand.
fn deeper(random: &mut Random, lines: &[WrittenLine], spelled: &mut [Vec<u8>], at: usize) -> usize {
    let deepest = match at {
        0 => 0,
        _ => lines[at - 1].deepest_next(),
    };
    let more = 2 * (deepest + random.between(1, 2) - lines[at].level);
    spelled[at].splice(0..0, vec![b' '; more]);
    at + 1
}

/// After a line that wants a process comes a line above the process's level, or of that level.
fn closed_early(random: &mut Random, lines: &[WrittenLine], spelled: &mut Vec<Vec<u8>>) -> usize {
    let wants = |at: usize| matches!(lines[at].opens, Opens::One | Opens::Block);
    let Some(at) = random.pick_where(lines.len(), wants) else {
        return after_the_end(random, spelled);
    };
    let level = match lines[at].opens {
        Opens::Block => random.below(lines[at].level),
        _ => random.between(0, lines[at].level),
    };
    spelled.insert(at + 1, format!("{}SKIP\n", "  ".repeat(level)).into_bytes());
    at + 2
}

/// Before a line comes one of a sort that cannot stand there.
fn of_another_sort(lines: &[WrittenLine], spelled: &mut Vec<Vec<u8>>, at: usize) -> usize {
    let body = match lines[at].stands {
        Stands::Process => "1",
        Stands::Choice | Stands::Option => "SKIP",
    };
    let spaces = "  ".repeat(lines[at].level);
    spelled.insert(at, format!("{spaces}{body}\n").into_bytes());
    at + 1
}

/// A second process where only one can stand.
fn one_too_many(random: &mut Random, lines: &[WrittenLine], spelled: &mut Vec<Vec<u8>>) -> usize {
    let is_whole = |at: usize| {
        let alone = at > 0 && lines[at - 1].opens == Opens::One;
        alone && lines[at].opens == Opens::Nothing
    };
    let Some(at) = random.pick_where(lines.len(), is_whole) else {
        return after_the_end(random, spelled);
    };
    let spaces = "  ".repeat(lines[at].level);
    spelled.insert(at + 1, format!("{spaces}STOP\n").into_bytes());
    at + 2
}

/// A line after the whole process.
fn after_the_end(random: &mut Random, spelled: &mut Vec<Vec<u8>>) -> usize {
    let line = random.pick(&["SKIP\n", "INT zz:\n", "SEQ\n"]);
    spelled.push(line.as_bytes().to_vec());
    spelled.len()
}

/// The text ends after a declaration or after a line that wants a process, or has no bytes.
fn cut_short(random: &mut Random, lines: &[WrittenLine], spelled: &mut Vec<Vec<u8>>) -> usize {
    let headers = header_count(lines);
    let leaves_open =
        |kept: usize| kept <= headers || matches!(lines[kept - 1].opens, Opens::One | Opens::Block);
    let kept = random.pick_where(lines.len(), leaves_open).unwrap_or(0);
    spelled.truncate(kept);
    kept + 1
}
