//! Expressions and elements: at most one operator, others in brackets, chains of AND or of OR.
//!
//! Brackets nest as deep as a line is long, so they are read by a loop with a list of the brackets
//! that are open. What stands between two brackets is a short list of items, and an expression is a
//! list of one of a few forms.

use super::tokens::Token;
use super::tree::{Element, Tree};
use crate::kinds::GIVEN;
use std::mem::take;

/// What stands in an expression.
#[derive(Clone, Copy)]
enum Item<'t> {
    /// An element that is not in round brackets.
    Element(Element<'t>),
    /// A literal, or an expression in round brackets, by its node.
    Value(usize),
    /// An operator, or any other mark, which no expression has.
    Mark(&'static str),
}

/// A bracket that is open, and the items before it.
enum Open<'t> {
    Round(Vec<Item<'t>>),
    Subscript(Vec<Item<'t>>, &'t str),
}

/// The dyadic operators by their numbers.
const OPERATORS: [&str; 16] = [
    "+", "-", "*", "/", "REM", "PLUS", "MINUS", "TIMES", "=", "<>", "<", "<=", ">", ">=", "AND",
    "OR",
];

/// The monadic operators of which the operand may be any.
const MINUS: i32 = 0;
const NOT: i32 = 1;

/// The node of an expression; `None` if these symbols are none.
pub fn expression<'t>(tree: &mut Tree<'t>, tokens: &[Token<'t>]) -> Option<usize> {
    let items = items(tree, tokens)?;
    grouped(tree, &items)
}

/// An element; `None` if these symbols are none, also for one in round brackets.
pub fn element<'t>(tree: &mut Tree<'t>, tokens: &[Token<'t>]) -> Option<Element<'t>> {
    match items(tree, tokens)?[..] {
        [Item::Element(element)] => Some(element),
        _ => None,
    }
}

/// The items of an expression or element outside all brackets.
fn items<'t>(tree: &mut Tree<'t>, tokens: &[Token<'t>]) -> Option<Vec<Item<'t>>> {
    let mut opened = Vec::new();
    let mut items = Vec::new();
    let mut rest = tokens;
    while let [first, after @ ..] = rest {
        rest = after;
        match (*first, after) {
            (Token::Name(name), [Token::Mark("["), inside @ ..]) => {
                opened.push(Open::Subscript(take(&mut items), name));
                rest = inside;
            }
            (Token::Mark("("), _) => opened.push(Open::Round(take(&mut items))),
            (Token::Mark(mark @ (")" | "]")), _) => {
                let inside = grouped(tree, &items)?;
                items = closed(opened.pop()?, mark, inside)?;
            }
            (Token::Name(name), _) => items.push(Item::Element(Element {
                name,
                subscript: None,
            })),
            (Token::Number(value), _) => items.push(Item::Value(tree.literal(value))),
            (Token::Mark(mark), _) => items.push(Item::Mark(mark)),
        }
    }
    opened.is_empty().then_some(items)
}

/// The items up to a closing bracket, with what stood inside as their last one.
fn closed<'t>(open: Open<'t>, mark: &str, inside: usize) -> Option<Vec<Item<'t>>> {
    let (mut items, last) = match (open, mark) {
        (Open::Round(items), ")") => (items, Item::Value(inside)),
        (Open::Subscript(items, name), "]") => {
            let subscript = Some(inside);
            (items, Item::Element(Element { name, subscript }))
        }
        _ => return None,
    };
    items.push(last);
    Some(items)
}

/// The node of an expression of these items; `None` if they are none.
fn grouped<'t>(tree: &mut Tree<'t>, items: &[Item<'t>]) -> Option<usize> {
    use Item::Mark;
    match *items {
        [alone] => operand(tree, alone),
        [Mark("GIVEN"), Item::Element(element)] => {
            let element = tree.variable(element);
            Some(tree.monadic(GIVEN, element))
        }
        [Mark("-"), of] => operand(tree, of).map(|of| tree.monadic(MINUS, of)),
        [Mark("NOT"), of] => operand(tree, of).map(|of| tree.monadic(NOT, of)),
        [_, Mark(mark @ ("AND" | "OR")), ..] => chain(tree, mark, items),
        [left, Mark(mark), right] => {
            let (left, right) = (operand(tree, left)?, operand(tree, right)?);
            Some(tree.dyadic(operator(mark)?, left, right))
        }
        _ => None,
    }
}

/// The node of a chain of AND alone or OR alone, which groups to the right.
fn chain<'t>(tree: &mut Tree<'t>, mark: &str, items: &[Item<'t>]) -> Option<usize> {
    let operator = operator(mark)?;
    let (last, before) = items.split_last()?;
    let mut node = operand(tree, *last)?;
    for link in before.rchunks(2) {
        let [left, Item::Mark(between)] = *link else {
            return None;
        };
        if between != mark {
            return None;
        }
        let left = operand(tree, left)?;
        node = tree.dyadic(operator, left, node);
    }
    Some(node)
}

/// The node of an operand; `None` for a mark.
fn operand<'t>(tree: &mut Tree<'t>, item: Item<'t>) -> Option<usize> {
    match item {
        Item::Element(element) => Some(tree.variable(element)),
        Item::Value(node) => Some(node),
        Item::Mark(_) => None,
    }
}

/// The number of a dyadic operator.
fn operator(mark: &str) -> Option<i32> {
    let number = OPERATORS.iter().position(|&operator| operator == mark)?;
    i32::try_from(number).ok()
}
