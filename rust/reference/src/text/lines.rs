//! The lines of a text: each has a number, a level and symbols.

use super::tokens::{tokens, Token};
use crate::table::Line;

/// Spaces for each level.
const LEVEL_SPACES: usize = 2;

/// One line of a text.
pub struct TextLine<'t> {
    /// Its number, from 1.
    pub number: usize,
    pub level: usize,
    pub tokens: Vec<Token<'t>>,
}

/// Reads a line; `None` if it has no line feed, no whole number of levels, or is not made of symbols.
pub fn read_line<'t>(number: usize, line: &Line<'t>) -> Option<TextLine<'t>> {
    let spaces = line.bytes.iter().take_while(|&&byte| byte == b' ').count();
    let whole = spaces.is_multiple_of(LEVEL_SPACES);
    let tokens = tokens(&line.bytes[spaces..])?;
    (line.ends && whole).then_some(TextLine {
        number,
        level: spaces / LEVEL_SPACES,
        tokens,
    })
}
