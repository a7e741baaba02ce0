//! Tables, texts and sheets: from files, or from standard input, for which `-` stands.

use crate::arguments::Arguments;
use crate::code::Code;
use std::io::Read;
use std::path::Path;

/// The word for standard input.
const STANDARD_INPUT: &str = "-";

/// Bytes of a table, a text or a sheet, and a name for words about them.
pub struct Source {
    pub bytes: Vec<u8>,
    pub name: String,
}

/// The bytes that this word stands for; an error names them.
pub fn read(word: &str) -> Result<Source, String> {
    let read = match word {
        STANDARD_INPUT => {
            let mut bytes = Vec::new();
            std::io::stdin().read_to_end(&mut bytes).map(|_| bytes)
        }
        file => std::fs::read(file),
    };
    match read {
        Ok(bytes) => Ok(Source {
            bytes,
            name: short_name(word),
        }),
        Err(error) if word == STANDARD_INPUT => Err(format!("standard input: {error}")),
        Err(error) => Err(format!("{word}: {error}")),
    }
}

/// The flag by which a file is a text, whatever it looks like.
pub const TEXT: &str = "--text";

/// A table or a text and a sheet of readings, and a name for both.
pub struct CodeAndSheet {
    pub code: Code,
    pub sheet: Vec<u8>,
    pub names: String,
}

/// The table or text and the sheet of a command line. A `-` for both, once or twice, is the sheet
/// runner's input: a table or a text, a line `=`, and readings.
pub fn code_and_sheet(arguments: &Arguments) -> Result<CodeAndSheet, String> {
    let is_text = arguments.has(TEXT);
    match arguments.words()[..] {
        [STANDARD_INPUT] | [STANDARD_INPUT, STANDARD_INPUT] => {
            let input = read(STANDARD_INPUT)?;
            let (code, sheet) = parted(&input.bytes);
            Ok(CodeAndSheet {
                code: Code::new(code.to_vec(), is_text),
                sheet: sheet.to_vec(),
                names: input.name,
            })
        }
        [code, sheet] => {
            let (code, sheet) = (read(code)?, read(sheet)?);
            Ok(CodeAndSheet {
                names: format!("{} and {}", code.name, sheet.name),
                code: Code::new(code.bytes, is_text),
                sheet: sheet.bytes,
            })
        }
        _ => Err(arguments.wrong_words("TABLE and SHEET, or - for both from standard input")),
    }
}

/// The table or text up to the first line `=`, and the readings after it; without that line no readings.
fn parted(input: &[u8]) -> (&[u8], &[u8]) {
    let mut start = 0;
    for line in input.split_inclusive(|&byte| byte == b'\n') {
        if line == b"=\n" {
            return (&input[..start], &input[start + line.len()..]);
        }
        start += line.len();
    }
    (input, &[])
}

/// The last part of a file's name.
fn short_name(word: &str) -> String {
    if word == STANDARD_INPUT {
        return "standard input".to_string();
    }
    let last = Path::new(word).file_name();
    last.map_or(word.to_string(), |last| last.to_string_lossy().into_owned())
}

#[cfg(test)]
mod tests {
    use super::*;

    #[test]
    fn the_parting_line() {
        let parts = |text: &'static str| parted(text.as_bytes());
        assert_eq!(parts("t\n=\ns\n"), (&b"t\n"[..], &b"s\n"[..]));
        assert_eq!(parts("t\n=\n=\n"), (&b"t\n"[..], &b"=\n"[..]));
        assert_eq!(parts("=\n"), (&b""[..], &b""[..]));
        assert_eq!(parts("t\n="), (&b"t\n="[..], &b""[..]));
        assert_eq!(parts("t\n==\n"), (&b"t\n==\n"[..], &b""[..]));
    }

    #[test]
    fn names() {
        assert_eq!(short_name("-"), "standard input");
        assert_eq!(short_name("a/b.csv"), "b.csv");
    }
}
