//! What a line says by itself: a declaration, a process or the head of one, a choice or a guard.

use super::names::{Declaration, Role};
use super::phrases::{element, expression};
use super::tokens::Token::{self, Mark, Name, Number};
use super::tree::{Field, Tree, NONE, ZERO};
use crate::kinds::{
    ALT, ASSIGNMENT, CHANNEL, FROM_HOST, GUARD, IF, INNER, INPUT, OUTPUT, PAR, SEQ, SKIP, STOP,
    TO_HOST, VARIABLE, WHILE,
};
use crate::table::Row;

/// What stands beneath a process line, one level deeper.
pub enum Beneath {
    Nothing,
    /// Any number of these.
    Members,
    Choices,
    Options,
    /// One process, the body of a WHILE.
    Body,
}

/// The declaration that a line makes, of a variable or a channel.
pub fn declaration<'t>(line: usize, tokens: &[Token<'t>]) -> Option<Declaration<'t>> {
    let (size, named) = match tokens {
        [Mark("["), Number(size), Mark("]"), named @ ..] => (Some(*size), named),
        _ => (None, tokens),
    };
    let (name, row) = match (size, named) {
        (_, [Mark("INT"), Name(name), Mark(":")]) => {
            (name, Row::new(VARIABLE, size.unwrap_or(1), 0, 0))
        }
        (_, [Mark("CHAN"), Name(name), Mark(":")]) => {
            (name, Row::new(CHANNEL, size.unwrap_or(1), INNER, 0))
        }
        (None, [Mark("HOSTIN"), Name(name), Mark(":")]) => {
            (name, Row::new(CHANNEL, 1, FROM_HOST, 0))
        }
        (None, [Mark("HOSTOUT"), Number(capacity), Name(name), Mark(":")]) => {
            (name, Row::new(CHANNEL, 1, TO_HOST, *capacity))
        }
        _ => return None,
    };
    Some(Declaration { name, line, row })
}

/// The node of a process or of its head, and what stands beneath it.
pub fn process<'t>(tree: &mut Tree<'t>, tokens: &[Token<'t>]) -> Option<(usize, Beneath)> {
    let (kind, fields, beneath) = match tokens {
        [Mark("SKIP")] => (SKIP, [ZERO; 3], Beneath::Nothing),
        [Mark("STOP")] => (STOP, [ZERO; 3], Beneath::Nothing),
        [Mark("SEQ")] => (SEQ, [NONE, ZERO, ZERO], Beneath::Members),
        [Mark("PAR")] => (PAR, [NONE, ZERO, ZERO], Beneath::Members),
        [Mark("IF")] => (IF, [NONE, ZERO, ZERO], Beneath::Choices),
        [Mark("ALT")] => (ALT, [NONE, ZERO, ZERO], Beneath::Options),
        [Mark("WHILE"), boolean @ ..] => {
            let boolean = Field::Node(expression(tree, boolean)?);
            (WHILE, [boolean, ZERO, ZERO], Beneath::Body)
        }
        _ => return Some((action(tree, tokens)?, Beneath::Nothing)),
    };
    Some((tree.add(kind, fields), beneath))
}

/// The node of an assignment, an input or an output.
fn action<'t>(tree: &mut Tree<'t>, tokens: &[Token<'t>]) -> Option<usize> {
    let (subject, mark, object) = parted(tokens, &[":=", "?", "!"])?;
    let (kind, role) = match mark {
        ":=" => (ASSIGNMENT, Role::Variable),
        "!" => (OUTPUT, Role::Output),
        _ => return input(tree, tokens),
    };
    let subject = element(tree, subject)?;
    let [name, subscript] = tree.named(subject, role);
    let object = expression(tree, object)?;
    Some(tree.add(kind, [name, subscript, Field::Node(object)]))
}

/// The node of an input.
fn input<'t>(tree: &mut Tree<'t>, tokens: &[Token<'t>]) -> Option<usize> {
    let (channel, _, target) = parted(tokens, &["?"])?;
    let (channel, target) = (element(tree, channel)?, element(tree, target)?);
    let [name, subscript] = tree.named(channel, Role::Input);
    let target = tree.variable(target);
    Some(tree.add(INPUT, [name, subscript, Field::Node(target)]))
}

/// The node of a guard: an input, a boolean with an input, or a boolean with SKIP.
pub fn guard<'t>(tree: &mut Tree<'t>, tokens: &[Token<'t>]) -> Option<usize> {
    let Some((boolean, _, waits)) = parted(tokens, &["&"]) else {
        return input(tree, tokens);
    };
    let boolean = expression(tree, boolean)?;
    let waits = match waits {
        [Mark("SKIP")] => tree.add(SKIP, [ZERO; 3]),
        _ => input(tree, waits)?,
    };
    let (boolean, waits) = (Field::Node(boolean), Field::Node(waits));
    Some(tree.add(GUARD, [boolean, waits, ZERO]))
}

/// The symbols before and after the first of these marks, and the mark.
fn parted<'a, 't>(
    tokens: &'a [Token<'t>],
    marks: &[&str],
) -> Option<(&'a [Token<'t>], &'static str, &'a [Token<'t>])> {
    let found = |(at, token): (usize, &Token<'t>)| match token {
        Mark(mark) if marks.contains(mark) => Some((at, *mark)),
        _ => None,
    };
    let (at, mark) = tokens.iter().enumerate().find_map(found)?;
    Some((&tokens[..at], mark, &tokens[at + 1..]))
}
