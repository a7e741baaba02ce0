//! Refusals 2, 3 and 10: a line of the table or of the sheet.

use crate::program::Program;

const TABLE_BYTES: usize = 32_768;
const SHEET_BYTES: usize = 16_384;
const VALUE_LINES: usize = 128;
const NAMES_LINE: &str = "kind,a,b,c";
const SHOWN: usize = 60;

/// Words about a faulty line of a table.
pub fn of_table(table: &[u8], number: usize) -> Vec<String> {
    if number == 0 {
        return vec![format!(
            "the table has {} bytes; at most {TABLE_BYTES} are allowed",
            table.len()
        )];
    }
    let Some(line) = line(table, number) else {
        return vec![format!(
            "line {number} is missing; expected the line {NAMES_LINE}"
        )];
    };
    let mut words = vec![shown(number, line)];
    words.extend(ending(line));
    let text = without_ending(line);
    if number == 1 {
        if text != NAMES_LINE.as_bytes() {
            words.push(format!("expected the line {NAMES_LINE}"));
        }
    } else {
        words.extend(field_count(text, 4, "four whole numbers"));
        words.extend(faulty_fields(text, &["kind", "a", "b", "c"], false));
    }
    words
}

/// Words about a table with too many rows.
pub fn too_many_rows(table: &[u8]) -> Vec<String> {
    let lines = table.split_inclusive(|&byte| byte == b'\n').count();
    let mut words = vec![format!(
        "the table has {} rows; at most 1024 are allowed",
        lines - 1
    )];
    words.extend(line(table, 1_026).map(|line| shown(1_026, line)));
    words
}

/// Words about a faulty line of a sheet for the channels of a program.
pub fn of_sheet(sheet: &[u8], number: usize, program: &Program) -> Vec<String> {
    if number == 0 {
        return vec![format!(
            "the sheet has {} bytes; at most {SHEET_BYTES} are allowed",
            sheet.len()
        )];
    }
    let channels: Vec<usize> = program.reading_channels().collect();
    let names: Vec<String> = channels.iter().map(usize::to_string).collect();
    let first = first_line_words(program, &channels, &names.join(","));
    let Some(line) = line(sheet, number) else {
        return vec![format!("line {number} is missing; expected {first}")];
    };
    let mut words = vec![shown(number, line)];
    words.extend(ending(line));
    let text = without_ending(line);
    if number == 1 {
        if text != names.join(",").as_bytes() {
            words.push(format!("expected {first}"));
        }
    } else if channels.is_empty() {
        words.push("expected no further line: the table has no channel from the host".to_string());
    } else if number > VALUE_LINES + 1 {
        words.push(format!(
            "expected at most {VALUE_LINES} lines after the first"
        ));
    } else {
        let wanted = format!("{}, one for each of the channels {}", channels.len(), {
            names.join(",")
        });
        words.extend(field_count(text, channels.len(), &wanted));
        let words_of_fields: Vec<String> =
            names.iter().map(|name| format!("channel {name}")).collect();
        words.extend(faulty_fields(text, &words_of_fields, true));
    }
    words
}

/// What the first line of a sheet should be. A channel of a text is its declaration's row: as many as
/// there are declarations before it.
fn first_line_words(program: &Program, channels: &[usize], names: &str) -> String {
    if channels.is_empty() {
        return "an empty line, since the table has no channel from the host".to_string();
    }
    let which = channels.iter().map(|&channel| match program.origin {
        Some(_) => format!("{channel} for {}", program.name(channel)),
        None => channel.to_string(),
    });
    let order = match program.origin {
        Some(_) => format!(
            "rows of the channels from the host: {}",
            which.collect::<Vec<_>>().join(", ")
        ),
        None => "channels from the host in row order".to_string(),
    };
    format!("the line {names}, the {order}")
}

/// A line with its line feed, counted from 1.
pub fn line(bytes: &[u8], number: usize) -> Option<&[u8]> {
    bytes.split_inclusive(|&byte| byte == b'\n').nth(number - 1)
}

/// A line without its line feed and a carriage return before it.
fn without_ending(line: &[u8]) -> &[u8] {
    let line = line.strip_suffix(b"\n").unwrap_or(line);
    line.strip_suffix(b"\r").unwrap_or(line)
}

/// The line as written, shortened.
pub fn shown(number: usize, line: &[u8]) -> String {
    let line = line.strip_suffix(b"\n").unwrap_or(line);
    format!("line {number}: {}", readable(line))
}

/// Bytes to read on a terminal: odd ones escaped, shortened; "(empty)" for none.
pub fn readable(bytes: &[u8]) -> String {
    if bytes.is_empty() {
        return "(empty)".to_string();
    }
    let text = String::from_utf8_lossy(bytes);
    let mut shown: String = text
        .chars()
        .take(SHOWN)
        .flat_map(char::escape_debug)
        .collect();
    if text.chars().count() > SHOWN {
        shown += "...";
    }
    shown
}

/// A field in quotes; "empty" for no bytes.
fn quoted(field: &[u8]) -> String {
    match field {
        [] => "empty".to_string(),
        _ => format!("\"{}\"", readable(field)),
    }
}

/// Words about a line that does not end as it should.
pub fn ending(line: &[u8]) -> Option<String> {
    if line.ends_with(b"\r\n") {
        return Some(
            "a carriage return stands before the line feed; expected a line feed alone".to_string(),
        );
    }
    (!line.ends_with(b"\n")).then(|| "the line does not end with a line feed".to_string())
}

/// Words about a wrong count of fields.
fn field_count(text: &[u8], wanted: usize, what: &str) -> Option<String> {
    let count = text.split(|&byte| byte == b',').count();
    let fields = if count == 1 { "field" } else { "fields" };
    (count != wanted).then(|| format!("the line has {count} {fields}; expected {what}"))
}

/// Words about each field that is no number.
fn faulty_fields(text: &[u8], names: &[impl AsRef<str>], may_be_empty: bool) -> Vec<String> {
    let fields = text.split(|&byte| byte == b',').zip(names);
    let fault = |(field, name): (&[u8], &_)| {
        let why = number_fault(field).filter(|_| !(may_be_empty && field.is_empty()))?;
        let name: &str = AsRef::<str>::as_ref(name);
        Some(format!("field {name} is {}: {why}", quoted(field)))
    };
    fields.filter_map(fault).collect()
}

/// Why a field is no number of the table's form; none if it is one.
pub fn number_fault(field: &[u8]) -> Option<&'static str> {
    let digits = field.strip_prefix(b"-").unwrap_or(field);
    let why = match digits {
        [] if field.is_empty() => "expected a number",
        [] => "expected digits after the minus",
        [b'+', ..] => "a number has no plus",
        _ if digits.iter().any(u8::is_ascii_whitespace) => "a number has no space",
        _ if !digits.iter().all(u8::is_ascii_digit) => "expected a whole number in base ten",
        [b'0'] if field.len() == 2 => "zero has no minus",
        [b'0', _, ..] => "a number has no leading zeros",
        _ if std::str::from_utf8(field).ok()?.parse::<i32>().is_err() => {
            "expected a number from -2147483648 to 2147483647"
        }
        _ => return None,
    };
    Some(why)
}

#[cfg(test)]
mod tests {
    use super::*;

    #[test]
    fn numbers_that_are_none() {
        let words = |field: &str| number_fault(field.as_bytes()).unwrap_or("");
        for (field, word) in [
            ("0", ""),
            ("-2147483648", ""),
            ("", "expected a number"),
            ("-", "digits"),
            ("+4", "plus"),
            (" 4", "space"),
            ("4x", "whole"),
            ("-0", "minus"),
            ("007", "zeros"),
            ("2147483648", "2147483647"),
        ] {
            assert_eq!(words(field).is_empty(), word.is_empty(), "{field}");
            assert!(words(field).contains(word), "{field}");
        }
    }

    #[test]
    fn long_and_odd_lines_are_shortened_and_escaped() {
        assert_eq!(readable(b"a\tb\x1b"), "a\\tb\\u{1b}");
        assert_eq!(readable(&[b'7'; 70]).len(), SHOWN + 3);
    }
}
