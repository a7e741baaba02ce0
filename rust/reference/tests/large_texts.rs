//! The largest texts: each is answered in little time and with a stack of 1 MiB.

use reference::generate::occam::largest::{blocks, declarations, filled, levels, nested, turns};
use reference::text::TEXT_BYTES;
use reference::{read_text, Refusal};
use std::thread;
use std::time::{Duration, Instant};

/// A generous bound for one text; each takes a few milliseconds.
const MOST_TIME: Duration = Duration::from_millis(500);
/// Stack of the thread that reads.
const STACK: usize = 1 << 20;

/// Reads a text with a small stack: the count of rows or the refusal. Fails if it takes long.
fn answer(text: String) -> Result<usize, Refusal> {
    assert!(text.len() <= TEXT_BYTES, "{} bytes", text.len());
    let read = move || {
        let begun = Instant::now();
        let rows = read_text(text.as_bytes());
        (rows.map(|rows| rows.len()), begun.elapsed())
    };
    let thread = thread::Builder::new().stack_size(STACK).spawn(read);
    let (rows, time) = thread.expect("a thread").join().expect("no overflow");
    assert!(time < MOST_TIME, "{time:?}");
    rows
}

const TOO_MANY_ROWS: Result<usize, Refusal> = Err(Refusal {
    number: 3,
    place: 1_024,
});

#[test]
fn many_lines() {
    let only_begun = |lines: usize| Err(Refusal::new(12, lines + 1));
    assert_eq!(answer(filled("", "INT a:\n", "")), only_begun(4_681));
    let again = Err(Refusal::new(13, 2));
    assert_eq!(answer(filled("", "INT a:\n", "SKIP\n")), again);
    assert_eq!(answer(declarations(3_640) + "SKIP\n"), TOO_MANY_ROWS);
    assert_eq!(answer(declarations(1_023) + "SKIP\n"), Ok(1_024));
    let sends = filled("CHAN c:\nINT x:\nSEQ\n", "  c!x\n", "");
    assert_eq!(answer(sends), TOO_MANY_ROWS);
    let sends = filled("SEQ\n", "  c!x\n", "");
    assert_eq!(sends.lines().count(), 5_461);
    assert_eq!(answer(sends), Err(Refusal::new(13, 2)));
    let choices = filled("IF\n", "  1\n    SKIP\n", "");
    assert_eq!(answer(choices), TOO_MANY_ROWS);
    let options = filled("ALT\n", "  1&SKIP\n    STOP\n", "");
    assert_eq!(answer(options), TOO_MANY_ROWS);
    assert_eq!(answer("\n".repeat(TEXT_BYTES)), Err(Refusal::new(12, 1)));
}

#[test]
fn long_lines() {
    let bad = Err(Refusal::new(12, 2));
    assert_eq!(answer(nested("(", "x", ")", 16_000)), Ok(5));
    assert_eq!(answer(nested("(", "x", ")", 16_377)), Ok(5));
    assert_eq!(answer(nested("(", "x", "]", 16_000)), bad);
    assert_eq!(answer(nested("(x+", "x", ")", 8_000)), TOO_MANY_ROWS);
    assert_eq!(answer(nested("(x+", "x", ")", 339)), Ok(3 + 339 * 3 + 2));
    assert_eq!(answer(nested("x[", "x", "]", 10_900)), TOO_MANY_ROWS);
    assert_eq!(answer(nested("x[", "x", "]", 1_019)), Ok(3 + 1_019 + 2));
    assert_eq!(answer(nested("x AND ", "x", "", 5_400)), TOO_MANY_ROWS);
    assert_eq!(answer(nested("x AND ", "x OR x", "", 5_400)), bad);
    assert_eq!(answer(nested("x[", "x", "", 16_000)), bad);
    assert_eq!(answer(nested("-", "x", "", 32_000)), bad);
    assert_eq!(answer(nested("x", "", "", 32_000)), bad);
    assert_eq!(answer(nested("1", "", "", 32_000)), bad);
    assert_eq!(answer(nested(" ", "x", "", 32_000)), Ok(5));
    assert_eq!(answer(nested("x", "", " ", 16_000)), bad);
}

#[test]
fn deep_levels() {
    let deep = levels("SEQ", "SKIP");
    let depth = deep.lines().count() - 1;
    assert!(depth > 175, "{depth}");
    assert_eq!(answer(deep), Ok(2 * depth + 1));
    let deep = levels("WHILE 1", "STOP");
    let depth = deep.lines().count() - 1;
    assert_eq!(answer(deep), Ok(2 * depth + 1));
    // IF and its choice by turns are the shortest lines: 180 levels fit, of which 179 are a text.
    assert_eq!(answer(turns(179)), Ok(90 + 2 * 89));
    assert_eq!(answer(turns(180)), Err(Refusal::new(12, 181)));
    assert!(turns(181).len() > TEXT_BYTES);
    let only_begun = levels("WHILE 1", "WHILE 1");
    let lines = only_begun.lines().count();
    assert_eq!(answer(only_begun), Err(Refusal::new(12, lines + 1)));
    assert_eq!(answer(blocks(510)), Ok(510 * 2 + 3));
    assert_eq!(answer(blocks(2_900)), TOO_MANY_ROWS);
}
