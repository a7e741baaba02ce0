//! The largest texts: as long, deep and wide as the limit of bytes allows, for tests and times.

use crate::text::TEXT_BYTES;

/// A text with a name that tells what it has most of.
pub type Named = (&'static str, String);

/// The largest texts that are read.
pub fn largest_read() -> Vec<Named> {
    vec![
        ("16377 brackets", nested("(", "x", ")", 16_377)),
        ("339 sums in brackets", nested("(x+", "x", ")", 339)),
        ("1019 subscripts", nested("x[", "x", "]", 1_019)),
        ("chain of 340", nested("x AND ", "x", "", 339)),
        ("32000 spaces", nested(" ", "x", "", 32_000)),
        ("1023 declarations", declarations(1_023) + "SKIP\n"),
        ("203 outputs", outputs(203)),
        (
            "340 choices",
            format!("IF\n{}", "  1\n    SKIP\n".repeat(340)),
        ),
        (
            "204 options",
            format!("ALT\n{}", "  1&SKIP\n    STOP\n".repeat(204)),
        ),
        ("178 levels of SEQ", levels("SEQ", "SKIP")),
        ("176 levels of WHILE", levels("WHILE 1", "STOP")),
        ("179 levels of IF", turns(179)),
        ("510 blocks", blocks(510)),
    ]
}

/// The largest texts that are refused.
pub fn largest_refused() -> Vec<Named> {
    vec![
        ("8000 sums in brackets", nested("(x+", "x", ")", 8_000)),
        ("10900 subscripts", nested("x[", "x", "]", 10_900)),
        ("chain of 5401", nested("x AND ", "x", "", 5_400)),
        (
            "chain with a last OR",
            nested("x AND ", "x OR x", "", 5_400),
        ),
        ("16000 open brackets", nested("x[", "x", "", 16_000)),
        ("brackets that do not fit", nested("(", "x", "]", 16_000)),
        ("32000 minus signs", nested("-", "x", "", 32_000)),
        ("a word of 32000", nested("x", "", "", 32_000)),
        ("a number of 32000", nested("1", "", "", 32_000)),
        ("4681 declarations", filled("", "INT a:\n", "")),
        ("one name 4680 times", filled("", "INT a:\n", "SKIP\n")),
        ("3640 names", declarations(3_640) + "SKIP\n"),
        ("last of 2000 names", last_of_many(2_000)),
        (
            "27000 rows",
            filled("CHAN c:\nINT x:\nSEQ\n", "  c!x\n", ""),
        ),
        ("27000 rows, no names", filled("SEQ\n", "  c!x\n", "")),
        ("2521 choices", filled("IF\n", "  1\n    SKIP\n", "")),
        ("1724 options", filled("ALT\n", "  1&SKIP\n    STOP\n", "")),
        ("180 levels of IF", turns(180)),
        ("2900 blocks", blocks(2_900)),
        ("32768 line feeds", "\n".repeat(TEXT_BYTES)),
        ("32769 bytes", " ".repeat(TEXT_BYTES + 1)),
    ]
}

/// As many copies of a line as fit between a beginning and an end.
pub fn filled(begin: &str, line: &str, end: &str) -> String {
    let room = TEXT_BYTES - begin.len() - end.len();
    format!("{begin}{}{end}", line.repeat(room / line.len()))
}

/// An expression that opens something so often round a middle, and closes it as often.
pub fn nested(open: &str, middle: &str, close: &str, count: usize) -> String {
    let (opened, closed) = (open.repeat(count), close.repeat(count));
    format!("INT x:\nx:={opened}{middle}{closed}\n")
}

/// A name of three letters, another one for each number below 17,576.
fn name(number: usize) -> String {
    let letter = |number: usize| char::from(b'a' + (number % 26) as u8);
    [number / 676, number / 26, number]
        .map(letter)
        .iter()
        .collect()
}

/// Declarations of so many names.
pub fn declarations(count: usize) -> String {
    let line = |number: usize| format!("INT {}:\n", name(number));
    (0..count).map(line).collect()
}

/// So many declarations, and as many uses of the last name as fit.
fn last_of_many(count: usize) -> String {
    let use_of_last = format!("  {0}:={0}\n", name(count - 1));
    filled(&(declarations(count) + "SEQ\n"), &use_of_last, "")
}

/// So many outputs in a SEQ.
fn outputs(count: usize) -> String {
    format!("CHAN c:\nINT x:\nSEQ\n{}", "  c!x\n".repeat(count))
}

/// Lines one level deeper each, as many as fit.
pub fn levels(line: &str, end: &str) -> String {
    let mut text = String::new();
    for level in 0.. {
        let more = format!("{}{line}\n", "  ".repeat(level));
        let last = format!("{}{end}\n", "  ".repeat(level + 1));
        if text.len() + more.len() + last.len() > TEXT_BYTES {
            text += &format!("{}{end}\n", "  ".repeat(level));
            break;
        }
        text += &more;
    }
    text
}

/// IF and its choice by turns, the shortest lines that go deeper, at so many levels.
pub fn turns(count: usize) -> String {
    let line = |level: usize| "  ".repeat(level) + ["IF\n", "1\n"][level % 2];
    (0..count).map(line).collect()
}

/// A block in the process of the one before it, so often, each with a name of its own.
pub fn blocks(count: usize) -> String {
    let declared = declarations(count).replace("INT", "  INT");
    format!("SEQ\n{declared}  SKIP\n")
}

#[cfg(test)]
mod tests {
    use super::*;
    use crate::read_text;

    #[test]
    fn the_names_tell_the_truth() {
        for (name, text) in largest_read() {
            let rows = read_text(text.as_bytes()).map(|rows| rows.len());
            let large = text.len() > 30_000 || rows.as_ref().is_ok_and(|&rows| rows > 1_000);
            assert!(rows.is_ok() && large, "{name}: {rows:?}");
        }
        for (name, text) in largest_refused() {
            let refusal = read_text(text.as_bytes())
                .map(|rows| rows.len())
                .unwrap_err();
            assert!(
                text.len() > 25_000,
                "{name}: {refusal}, {} bytes",
                text.len()
            );
        }
    }
}
