//! The bytes of a line: spaces where they are needed, and some where they may stand.

use super::super::random::Random;
use super::lines::WrittenLine;

/// The bytes of a line, with its line feed.
pub fn spelled(random: &mut Random, line: &WrittenLine) -> Vec<u8> {
    let most = random.pick(&[0, 0, 1, 1, 3]);
    let mut text = "  ".repeat(line.level);
    for (place, token) in line.tokens.iter().enumerate() {
        if place > 0 {
            let least = usize::from(needs_space(&line.tokens[place - 1], token));
            text += &" ".repeat(random.between(least, least.max(most)));
        }
        text += token;
    }
    text.push('\n');
    text.into_bytes()
}

/// Whether a space must part two symbols: words and numbers, and a minus sign before a digit.
fn needs_space(left: &str, right: &str) -> bool {
    let digit_first = right.starts_with(|first: char| first.is_ascii_digit());
    is_word_or_number(left) && is_word_or_number(right) || left == "-" && digit_first
}

/// Whether a symbol is a word or a number.
fn is_word_or_number(token: &str) -> bool {
    token.ends_with(|last: char| last.is_ascii_alphanumeric() || last == '_')
}
