//! What is wrong with a text at the place of a refusal, in plain words. The place is the library's;
//! the cause is looked for here, and where none is found only what may stand there is told.

mod names;
mod outline;
mod phrases;
mod sentences;
mod symbols;

use crate::code::looks_like_a_table;
use crate::faults::lines::{line, shown};
use outline::{Outline, Wrong};
use symbols::{scan, Scanned};

pub use names::at_fault as of_names;

/// Most bytes of a text.
const TEXT_BYTES: usize = 32_768;

/// Words about a text that is not of the grammar at this line.
pub fn of_the_grammar(text: &[u8], number: usize) -> Vec<String> {
    if number == 0 {
        return vec![format!(
            "the text has {} bytes; at most {TEXT_BYTES} are allowed",
            text.len()
        )];
    }
    let outline = outline_before(text, number);
    match line(text, number) {
        Some(line) => of_line(outline, number, line),
        None => vec![at_the_end(&outline, number)],
    }
}

/// What to do about a text that is not of the grammar at this line.
pub fn help_about_the_grammar(text: &[u8], number: usize) -> &'static str {
    match line(text, number.max(1)) {
        _ if !text.is_empty() && looks_like_a_table(text) => {
            "it looks like a table, which `occam-table check` takes as it is, without --text"
        }
        _ if number == 0 => "shorten the text to at most 32768 bytes",
        None => "add what is missing at the end",
        Some(b"=\n") => {
            "leave out the line `=` and the readings after it: a text alone is wanted here"
        }
        Some(last) if !last.ends_with(b"\n") => "mend that line, and end it with a line feed",
        Some(_) => "mend that line or one before it; no further lines could",
    }
}

/// Words about a text that makes too many rows.
pub fn too_many_rows(text: &[u8]) -> Vec<String> {
    let lines = text.split_inclusive(|&byte| byte == b'\n').count();
    vec![
        format!("the text has {lines} lines; the table that it makes has more than 1024 rows"),
        "a declaration, a process, an operator and a number make a row each, a name used makes \
         one and one for its subscript, and so do each process of a SEQ or PAR, each choice and \
         each option"
            .to_string(),
    ]
}

/// The lines before this one, which the library found right.
fn outline_before(text: &[u8], number: usize) -> Outline {
    let mut outline = Outline::new();
    let lines = text.split_inclusive(|&byte| byte == b'\n');
    for line in lines.take(number - 1) {
        if outline.take(&scan(line)).is_err() {
            break;
        }
    }
    outline
}

/// Words about a line: as written, what is wrong, and where it stands wrongly what may stand there.
fn of_line(mut outline: Outline, number: usize, line: &[u8]) -> Vec<String> {
    let expected = outline.expected();
    let Wrongs { words, misplaced } = wrong_here(&mut outline, &scan(line));
    let expected = (misplaced || words.is_empty()).then_some(expected);
    let shown = std::iter::once(shown(number, line));
    shown.chain(words).chain(expected).collect()
}

/// What is wrong with a line, and whether it is where it stands.
struct Wrongs {
    words: Vec<String>,
    misplaced: bool,
}

/// What is wrong with a line: its characters, else what it says or where it stands.
fn wrong_here(outline: &mut Outline, line: &Scanned<'_>) -> Wrongs {
    let (wrong, misplaced) = match line.faults.is_empty() {
        false => (line.faults.clone(), line.misplaced),
        true => match outline.take(line) {
            Ok(()) => (Vec::new(), false),
            Err(Wrong::Place(words)) => (vec![words], true),
            Err(Wrong::Saying(words)) => (vec![words], false),
        },
    };
    let two = line.symbols.windows(2).any(|pair| pair == [MINUS, MINUS]);
    let comment =
        two.then(|| "two minus signs stand side by side; a text has no comments".to_string());
    Wrongs {
        words: comment.into_iter().chain(wrong).collect(),
        misplaced,
    }
}

/// The sign of which two begin a comment in other occams.
const MINUS: symbols::Symbol<'_> = symbols::Symbol::Mark("-");

/// Words about a text that ends too early.
fn at_the_end(outline: &Outline, number: usize) -> String {
    let missing = outline.missing().unwrap_or_else(|| "a line".to_string());
    format!("the text ends before line {number}; expected {missing}")
}

#[cfg(test)]
mod tests {
    use super::*;
    use occam_table::read_text;
    use reference::generate::occam::text_input;
    use reference::generate::random::Random;
    use reference::printing::split_input;

    /// Words about the first fault of a text of the grammar or names, if it has one.
    fn told(text: &[u8]) -> Option<(u8, Vec<String>)> {
        let refusal = read_text(text).err()?;
        let place = refusal.place as usize;
        match refusal.number {
            12 => Some((12, of_the_grammar(text, place))),
            13 => Some((13, of_names(text, place))),
            _ => None,
        }
    }

    /// Asks that words are told about a text that is refused as 12 or 13: the line as written, and
    /// what is wrong there; or that something is missing. Tells the number.
    fn found(text: &[u8]) -> usize {
        let Some((number, words)) = told(text) else {
            return 0;
        };
        let found = match words.get(1) {
            Some(cause) => !cause.starts_with("expected"),
            None => words[0].starts_with("the text "),
        };
        assert!(found, "{words:?}\n{}", String::from_utf8_lossy(text));
        usize::from(number)
    }

    /// Changes, adds or takes out a byte that texts are made of.
    fn damage(random: &mut Random, text: &mut Vec<u8>) {
        let byte = random.pick(b"  \n\n()[]:=<>+-*/?!&0159abx_,NTRSEQ");
        let place = random.below(text.len());
        match random.below(3) {
            0 => text.insert(place, byte),
            1 => text[place] = byte,
            _ => {
                text.remove(place);
            }
        }
    }

    #[test]
    fn a_cause_is_found_at_every_place() {
        let mut counts = [0; 14];
        for seed in 0..3_000 {
            let (input, _) = text_input(seed, !seed.is_multiple_of(9));
            let (text, _) = split_input(&input);
            counts[found(text)] += 1;
            let random = &mut Random::new(seed);
            let mut text = text.to_vec();
            for _ in 0..4 {
                if !text.is_empty() {
                    damage(random, &mut text);
                    counts[found(&text)] += 1;
                }
            }
        }
        assert!(counts[12] > 5_000 && counts[13] > 500, "{counts:?}");
    }

    #[test]
    fn no_fault_is_found_in_a_text_that_is_read() {
        let mut lines = 0;
        for seed in 0..1_500 {
            let (input, _) = text_input(seed, !seed.is_multiple_of(9));
            let (text, _) = split_input(&input);
            if read_text(text).is_err() {
                continue;
            }
            let mut outline = Outline::new();
            for line in text.split_inclusive(|&byte| byte == b'\n') {
                let wrong = wrong_here(&mut outline, &scan(line)).words;
                assert_eq!(wrong, [""; 0], "{seed}: {}", String::from_utf8_lossy(line));
                lines += 1;
            }
            assert_eq!(outline.missing(), None, "{seed}");
            let count = text.split_inclusive(|&byte| byte == b'\n').count();
            for number in 1..=count {
                // the line as written, and nothing about its names
                assert_eq!(of_names(text, number).len(), 1, "{seed}, line {number}");
            }
        }
        assert!(lines > 5_000, "{lines} lines");
    }
}
