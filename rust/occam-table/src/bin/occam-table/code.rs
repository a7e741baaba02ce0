//! A program as it was given: a table's bytes, or an occam text.

use crate::program::Program;
use occam_table::{check_rows_counted, check_table, check_table_counted, check_text};
use occam_table::{read_rows, read_text, Checked, Machine, Refusal, Run, Verdict};

/// The letters of a table's first line.
const HEAD_LETTERS: &[u8] = b"kindabc";

/// A program as it was given.
pub struct Code {
    pub bytes: Vec<u8>,
    pub is_text: bool,
}

impl Code {
    /// The program of a file: a text if that is said, else what the bytes look like.
    pub fn new(bytes: Vec<u8>, is_text: bool) -> Code {
        Code {
            is_text: is_text || !looks_like_a_table(&bytes),
            bytes,
        }
    }

    /// The verdict.
    pub fn verdict(&self) -> Verdict {
        match self.is_text {
            true => check_text(&self.bytes),
            false => check_table(&self.bytes),
        }
    }

    /// The verdict with the count of pairs compared; of a text that is refused there are none.
    pub fn counted(&self) -> Checked {
        if !self.is_text {
            return check_table_counted(&self.bytes);
        }
        match read_text(&self.bytes) {
            Ok(rows) => check_rows_counted(rows.as_flattened()),
            Err(refusal) => Checked {
                verdict: Err(refusal),
                pairs: 0,
            },
        }
    }

    /// Runs it on a sheet.
    pub fn run<'m>(
        &self,
        machine: &'m mut Machine,
        sheet: &[u8],
        choices: &[u16],
        budget: u32,
    ) -> Result<Run<'m>, Refusal> {
        match self.is_text {
            true => machine.run_text(&self.bytes, sheet, choices, budget),
            false => machine.run_table(&self.bytes, sheet, choices, budget),
        }
    }

    /// The rows, for words about them; none if they could not be read.
    pub fn program(&self) -> Program {
        match self.is_text {
            true => {
                let rows = read_text(&self.bytes).unwrap_or_default();
                Program::of_text(&rows, &self.bytes)
            }
            false => Program::new(&read_rows(&self.bytes).unwrap_or_default()),
        }
    }
}

/// Whether bytes are a table's, if only a damaged one's. No line of a text has a comma or a
/// semicolon, so no text that could be read is taken for a table.
pub fn looks_like_a_table(bytes: &[u8]) -> bool {
    let mut lines = bytes.split(|&byte| byte == b'\n');
    let first = lines.next().unwrap_or_default();
    let parted = first.iter().any(is_separator);
    bytes.is_empty() || (parted && (spells_the_head(first) || is_row(first) || lines.any(is_row)))
}

/// Whether a byte parts the fields of a table, as it is or as some programs write it.
fn is_separator(byte: &u8) -> bool {
    matches!(byte, b',' | b';')
}

/// Whether a line has the letters of a table's first line.
fn spells_the_head(line: &[u8]) -> bool {
    let letters = line.iter().filter(|byte| byte.is_ascii_alphabetic());
    letters
        .map(u8::to_ascii_lowercase)
        .eq(HEAD_LETTERS.iter().copied())
}

/// Whether a line is made of numbers parted as in a table.
fn is_row(line: &[u8]) -> bool {
    let of_a_row = |byte: &u8| {
        byte.is_ascii_digit()
            || is_separator(byte)
            || matches!(byte, b'-' | b'+' | b' ' | b'"' | b'\r')
    };
    line.iter().all(of_a_row)
        && line.iter().any(u8::is_ascii_digit)
        && line.iter().any(is_separator)
}

#[cfg(test)]
mod tests {
    use super::*;

    #[test]
    fn tables_also_damaged_ones() {
        for table in [
            "",
            "kind,a,b,c",
            "kind,a,b,c\n",
            "kind,a,b,c\r\n21,0,0,0\r\n",
            "Kind,A,B,C\n",
            "kind, a, b, c\n",
            "\"kind\",\"a\",\"b\",\"c\"\n",
            "kind;a;b;c\n21;0;0;0\n",
            "\u{feff}kind,a,b,c\n",
            "21,0,0,0\n",
            "kind,a,b\n21,0,0,0\n",
            "kind,a,b,c\nINT x:\n",
            "xind,a,b,c\n21,0,0\n",
        ] {
            assert!(looks_like_a_table(table.as_bytes()), "{table:?}");
        }
    }

    #[test]
    fn texts_also_damaged_ones() {
        for text in [
            "SKIP\n",
            "SKIP",
            "\n",
            "\nkind,a,b,c\n",
            "=\n",
            "7\n",
            "INT x, y:\nSKIP\n",
            "INT a,b,c:\nSKIP\n",
            "kindabc := 1\n",
            "INT x:\nIF\n  1,5\n    SKIP\n",
            "c ! a; b\n",
        ] {
            assert!(!looks_like_a_table(text.as_bytes()), "{text:?}");
        }
    }

    #[test]
    fn what_is_said_goes_before_what_it_looks_like() {
        assert!(Code::new(b"kind,a,b,c\n".to_vec(), true).is_text);
        assert!(!Code::new(b"kind,a,b,c\n".to_vec(), false).is_text);
    }
}
