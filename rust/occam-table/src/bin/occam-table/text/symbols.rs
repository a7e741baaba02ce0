//! The symbols of a line of a text, and what keeps a line from being made of symbols.

use crate::faults::lines::{ending, number_fault, readable};

/// Most characters of a name.
const NAME_LENGTH: usize = 31;

/// The words that are no names.
pub const WORDS: [&str; 22] = [
    "INT", "CHAN", "HOSTIN", "HOSTOUT", "SKIP", "STOP", "SEQ", "PAR", "IF", "WHILE", "ALT", "REM",
    "PLUS", "MINUS", "TIMES", "AND", "OR", "NOT", "GIVEN", "TRUE", "FALSE", "FOR",
];

/// The signs; one that begins another comes after it.
const SIGNS: [&str; 19] = [
    ":=", "<>", "<=", ">=", ":", "=", "<", ">", "[", "]", "(", ")", "+", "-", "*", "/", "?", "!",
    "&",
];

/// One symbol of a line.
#[derive(Clone, Copy, Debug, PartialEq, Eq)]
pub enum Symbol<'t> {
    /// A word or a sign of the grammar.
    Mark(&'t str),
    Name(&'t str),
    Number(&'t str),
}

impl<'t> Symbol<'t> {
    /// The symbol as written.
    pub fn text(self) -> &'t str {
        match self {
            Symbol::Mark(text) | Symbol::Name(text) | Symbol::Number(text) => text,
        }
    }

    /// Whether it is a word or a number, which a space parts from another.
    fn is_wordlike(self) -> bool {
        self.text()
            .ends_with(|c: char| c.is_ascii_alphanumeric() || c == '_')
    }
}

/// A line as it is written: its indentation, its symbols, and what is wrong with its characters.
pub struct Scanned<'t> {
    pub spaces: usize,
    pub symbols: Vec<Symbol<'t>>,
    pub faults: Vec<String>,
    /// Whether what is wrong is where it begins, or that it is blank.
    pub misplaced: bool,
}

/// Scans a line, given with its line feed if it has one.
pub fn scan(line: &[u8]) -> Scanned<'_> {
    let body = line.strip_suffix(b"\n").unwrap_or(line);
    let spaces = body.iter().take_while(|&&byte| byte == b' ').count();
    let mut scan = Scan {
        scanned: Scanned {
            spaces,
            symbols: Vec::new(),
            faults: ending(line).into_iter().collect(),
            misplaced: spaces == body.len() || !spaces.is_multiple_of(2) || body[spaces] == b'\t',
        },
        foreign: false,
    };
    if spaces == body.len() {
        scan.fault("the line is blank; a text has no blank lines".to_string());
        return scan.scanned;
    }
    if !spaces.is_multiple_of(2) {
        let words = format!(
            "it begins with {}; expected two for each level",
            count(spaces, "space")
        );
        scan.fault(words);
    }
    if body.ends_with(b" ") {
        scan.fault("spaces stand at its end; expected none".to_string());
    }
    scan.symbols(body.strip_suffix(b"\r").unwrap_or(body), spaces);
    scan.scanned
}

/// So many of something.
pub fn count(number: usize, what: &str) -> String {
    match number {
        0 => format!("no {what}"),
        1 => format!("1 {what}"),
        _ => format!("{number} {what}s"),
    }
}

/// A scan of a line.
struct Scan<'t> {
    scanned: Scanned<'t>,
    /// Whether a character was told that stands in no line of a text; the first is.
    foreign: bool,
}

impl<'t> Scan<'t> {
    fn fault(&mut self, words: String) {
        self.scanned.faults.push(words);
    }

    /// Scans the symbols from a place on.
    fn symbols(&mut self, body: &'t [u8], begin: usize) {
        let mut at = begin;
        let mut spaced = true;
        while at < body.len() {
            let rest = &body[at..];
            let length = symbol_length(rest);
            let width = match std::str::from_utf8(&rest[..length]) {
                Ok(text) if length > 0 => {
                    self.symbol(text, spaced);
                    length
                }
                _ => self.not_a_symbol(rest, at),
            };
            spaced = length == 0;
            at += width;
        }
    }

    /// A space or a character that stands in no line of a text; tells how many bytes it has.
    fn not_a_symbol(&mut self, rest: &[u8], at: usize) -> usize {
        if rest[0] == b' ' {
            return 1;
        }
        let is_whole = |&width: &usize| std::str::from_utf8(&rest[..width]).is_ok();
        let width = (1..=rest.len().min(4)).find(is_whole).unwrap_or(1);
        if !self.foreign {
            self.foreign = true;
            let words = foreign_words(&rest[..width]);
            self.fault(format!("column {}: {words}", at + 1));
        }
        width
    }

    /// Takes a symbol, after a space or not.
    fn symbol(&mut self, text: &'t str, spaced: bool) {
        let symbol = match text.as_bytes()[0] {
            b'0'..=b'9' => Symbol::Number(text),
            b'-' if text.len() > 1 => Symbol::Number(text),
            first if first.is_ascii_alphabetic() && !WORDS.contains(&text) => Symbol::Name(text),
            _ => Symbol::Mark(text),
        };
        self.form(symbol);
        let last = self.scanned.symbols.last().copied();
        if let Some(last) =
            last.filter(|last| !spaced && last.is_wordlike() && symbol.is_wordlike())
        {
            self.fault(side_by_side(last, symbol));
        }
        self.scanned.symbols.push(symbol);
    }

    /// The form of a number and the length of a name.
    fn form(&mut self, symbol: Symbol<'t>) {
        match symbol {
            Symbol::Number(text) => {
                if let Some(why) = number_fault(text.as_bytes()) {
                    self.fault(format!("{} is no number of a text: {why}", shortened(text)));
                }
            }
            Symbol::Name(text) if text.len() > NAME_LENGTH => {
                let length = text.len();
                let text = shortened(text);
                self.fault(format!(
                    "the name {text} has {length} characters; expected at most {NAME_LENGTH}"
                ));
            }
            _ => {}
        }
    }
}

/// How many bytes the first symbol has; 0 if none begins here.
fn symbol_length(bytes: &[u8]) -> usize {
    let run = |goes_on: fn(u8) -> bool| {
        let more = bytes[1..].iter().take_while(|&&byte| goes_on(byte));
        1 + more.count()
    };
    match bytes {
        [b'A'..=b'Z' | b'a'..=b'z', ..] => run(|byte| byte.is_ascii_alphanumeric() || byte == b'_'),
        [b'0'..=b'9', ..] | [b'-', b'0'..=b'9', ..] => run(|byte| byte.is_ascii_digit()),
        _ => {
            let sign = SIGNS.iter().find(|sign| bytes.starts_with(sign.as_bytes()));
            sign.map_or(0, |sign| sign.len())
        }
    }
}

/// Words about a character that stands in no line of a text.
fn foreign_words(character: &[u8]) -> String {
    match character {
        b"\t" => "a tab stands there; expected spaces, two for each level".to_string(),
        b"\r" => "a carriage return stands there; expected none".to_string(),
        b"," | b";" => format!(
            "{} stands there; a line has one declaration, process, boolean or guard",
            quoted(character)
        ),
        b"_" => "an underscore stands there; a name begins with a letter".to_string(),
        b"\\" => "a backslash stands there; the remainder is REM".to_string(),
        _ => format!(
            "{} stands there, which is in no line of a text",
            quoted(character)
        ),
    }
}

/// A character as it is read.
fn quoted(character: &[u8]) -> String {
    format!("\"{}\"", readable(character))
}

/// A word or number, of a long one its beginning.
pub fn shortened(text: &str) -> String {
    match text.len() > 20 {
        true => format!("{}...", &text[..20]),
        false => text.to_string(),
    }
}

/// Words about two words, numbers or operands side by side.
pub fn side_by_side(one: Symbol<'_>, other: Symbol<'_>) -> String {
    let [left, right] = [one, other].map(|symbol| shortened(symbol.text()));
    let is_word = |symbol: Symbol<'_>| matches!(symbol, Symbol::Mark(_)) && symbol.is_wordlike();
    match other {
        _ if is_word(one) || is_word(other) => {
            format!("a space is needed between {left} and {right}")
        }
        Symbol::Number(number) if number.starts_with('-') => format!(
            "directly before a digit the minus belongs to the number: {left} is followed by the \
             number {right}; to subtract write {left} - {}",
            &right[1..]
        ),
        _ => format!("{left} and {right} stand side by side; expected an operator between them"),
    }
}

#[cfg(test)]
mod tests {
    use super::*;

    #[test]
    fn good_lines_have_no_fault() {
        for line in [
            "SKIP\n",
            "  x:=x--5\n",
            "    c[ 1 ] ! x REM -5\n",
            "x:=- 5\n",
            "WHILE-x\n",
        ] {
            assert_eq!(scan(line.as_bytes()).faults, [""; 0], "{line}");
        }
        assert_eq!(scan(b"    SEQ\n").spaces, 4);
    }

    #[test]
    fn faults_of_characters() {
        for (line, word) in [
            (&b"SKIP"[..], "line feed"),
            (b"SKIP\r\n", "carriage return"),
            (b"\n", "blank"),
            (b"   \n", "blank"),
            (b" SKIP\n", "begins with 1 space;"),
            (b"SKIP \n", "at its end"),
            (b"\tSKIP\n", "tab"),
            (b"INT x, y:\n", "column 6: \",\""),
            (b"x.y := 1\n", "\".\" stands"),
            (b"_x := 1\n", "underscore"),
            (b"x := 007\n", "leading zeros"),
            (b"x := -0\n", "zero has no minus"),
            (b"x := 2147483648\n", "2147483647"),
            (b"x := x-5\n", "to subtract write x - 5"),
            (b"x := 5-5\n", "to subtract write 5 - 5"),
            (b"x := x REM-5\n", "a space is needed between REM and -5"),
            (b"x := 5x\n", "5 and x stand side by side"),
            (b"x := 5REM 2\n", "a space is needed between 5 and REM"),
            (b"x := a\\b\n", "REM"),
            ("x := \u{e9}\n".as_bytes(), "\u{e9}"),
            (b"x := \xff\n", "in no line"),
        ] {
            let faults = scan(line).faults;
            assert!(
                faults.iter().any(|fault| fault.contains(word)),
                "{line:?}: {faults:?}"
            );
        }
        let long = format!("INT {}:\n", "a".repeat(32));
        assert!(scan(long.as_bytes()).faults[0].contains("has 32 characters"));
    }
}
