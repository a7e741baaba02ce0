//! The symbols of a line: the grammar's words and signs, names and numbers.

use crate::number::read_number;

/// One symbol of a line.
#[derive(Clone, Copy, Debug, PartialEq, Eq)]
pub enum Token<'t> {
    /// A word or a sign of the grammar.
    Mark(&'static str),
    /// A word that is none of the grammar's.
    Name(&'t str),
    /// A whole number of the table's form, with its sign.
    Number(i32),
}

/// The words that are no names: the grammar's, then TRUE, FALSE and FOR.
const WORDS: [&str; 22] = [
    "INT", "CHAN", "HOSTIN", "HOSTOUT", "SKIP", "STOP", "SEQ", "PAR", "IF", "WHILE", "ALT", "REM",
    "PLUS", "MINUS", "TIMES", "AND", "OR", "NOT", "GIVEN", "TRUE", "FALSE", "FOR",
];

/// The signs; one that begins another comes after it.
const SIGNS: [&str; 19] = [
    ":=", "<>", "<=", ">=", ":", "=", "<", ">", "[", "]", "(", ")", "+", "-", "*", "/", "?", "!",
    "&",
];

/// Most characters of a name.
const NAME_LENGTH: usize = 31;

/// The symbols of a line without its indentation; `None` if it has none or is not made of symbols.
/// Spaces stand between symbols only, and at least one between two that are words or numbers.
pub fn tokens(body: &[u8]) -> Option<Vec<Token<'_>>> {
    let mut found = Vec::new();
    let mut rest = body;
    let mut after_word = false;
    while !rest.is_empty() {
        let from_token = without_spaces(rest);
        let spaced = from_token.len() < rest.len();
        let (piece, after) = from_token.split_at(first_length(from_token)?);
        let is_word = is_word_or_number(piece);
        if after_word && is_word && !spaced {
            return None;
        }
        found.push(token(piece)?);
        (rest, after_word) = (after, is_word);
    }
    (!found.is_empty()).then_some(found)
}

/// The bytes from the first that is no space.
fn without_spaces(bytes: &[u8]) -> &[u8] {
    let spaces = bytes.iter().take_while(|&&byte| byte == b' ').count();
    &bytes[spaces..]
}

/// How many bytes the first symbol has; `None` if no symbol begins with the first byte.
fn first_length(bytes: &[u8]) -> Option<usize> {
    let run = |start: usize, goes_on: fn(&u8) -> bool| {
        let more = bytes[start..].iter().take_while(|byte| goes_on(byte));
        start + more.count()
    };
    match bytes {
        [b'A'..=b'Z' | b'a'..=b'z', ..] => Some(run(1, |&byte| is_of_a_word(byte))),
        [b'0'..=b'9', ..] | [b'-', b'0'..=b'9', ..] => Some(run(1, u8::is_ascii_digit)),
        _ => sign_at(bytes).map(str::len),
    }
}

/// Whether a byte may stand in a word after its first letter.
fn is_of_a_word(byte: u8) -> bool {
    byte.is_ascii_alphanumeric() || byte == b'_'
}

/// The longest sign with which these bytes begin.
fn sign_at(bytes: &[u8]) -> Option<&'static str> {
    SIGNS
        .into_iter()
        .find(|sign| bytes.starts_with(sign.as_bytes()))
}

/// Whether a symbol is a word or a number: these end with a letter, a digit or an underscore.
fn is_word_or_number(piece: &[u8]) -> bool {
    piece.last().is_some_and(|&byte| is_of_a_word(byte))
}

/// The symbol of these bytes; `None` for a number of another form and for a name that is too long.
fn token(piece: &[u8]) -> Option<Token<'_>> {
    let text = std::str::from_utf8(piece).ok()?;
    if !is_word_or_number(piece) {
        return sign_at(piece).map(Token::Mark);
    }
    if !piece[0].is_ascii_alphabetic() {
        return read_number(piece).map(Token::Number);
    }
    match WORDS.into_iter().find(|&word| word == text) {
        Some(word) => Some(Token::Mark(word)),
        None => (text.len() <= NAME_LENGTH).then_some(Token::Name(text)),
    }
}

#[cfg(test)]
mod tests {
    use super::Token::{Mark, Name, Number};
    use super::{tokens, WORDS};

    #[test]
    fn the_longest_symbol_is_taken() {
        let found = tokens(b"x<=-1<>y--5:=z_1 AND(- 0)").expect("symbols");
        let wanted = [
            Name("x"),
            Mark("<="),
            Number(-1),
            Mark("<>"),
            Name("y"),
            Mark("-"),
            Number(-5),
            Mark(":="),
            Name("z_1"),
            Mark("AND"),
            Mark("("),
            Mark("-"),
            Number(0),
            Mark(")"),
        ];
        assert_eq!(found, wanted);
    }

    #[test]
    fn the_grammars_words_are_no_names() {
        for word in WORDS {
            assert_eq!(tokens(word.as_bytes()), Some(vec![Mark(word)]));
            let lower = word.to_lowercase();
            assert_eq!(tokens(lower.as_bytes()), Some(vec![Name(&lower)]));
        }
    }

    #[test]
    fn not_symbols() {
        let long = "a".repeat(32);
        for body in [
            "",
            " ",
            "x ",
            "x\t",
            "x\r",
            "_x",
            "x.y",
            "#1",
            "x,y",
            "x;y",
            "\\",
            "'",
            "\"",
            "\0",
            "x\u{e9}",
            "07",
            "-0",
            "-07",
            "2147483648",
            "5x",
            "x5-5",
            "5-5",
            "5 5x",
            &long,
            "~",
            "{",
            "@",
            "%",
            "^",
            "|",
        ] {
            assert_eq!(tokens(body.as_bytes()), None, "{body:?}");
        }
        assert_eq!(tokens(&[b'x', 128]), None);
        assert!(tokens(&long.as_bytes()[1..]).is_some());
    }
}
