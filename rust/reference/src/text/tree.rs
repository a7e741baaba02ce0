//! What a text says: its declarations, and its process as a tree of rows without numbers.

use super::names::{Declaration, Role, Use};
use crate::kinds::{DYADIC, ELEMENT, LITERAL, MONADIC};

/// A field of a node.
#[derive(Clone, Copy, Debug)]
pub enum Field {
    /// A number as it is: a value, an operator, the row of a block's variable, 0, or -1 for none.
    Number(i32),
    /// The row that a name means, by the place of this use among the uses.
    Name(usize),
    /// Another node.
    Node(usize),
}

/// A row that has no number yet.
#[derive(Clone, Copy, Debug)]
pub struct Node {
    pub kind: i32,
    pub fields: [Field; 3],
}

/// An element as it is written: a name, and the node of its subscript unless it is bare.
#[derive(Clone, Copy, Debug)]
pub struct Element<'t> {
    pub name: &'t str,
    pub subscript: Option<usize>,
}

/// Field 0, for fields that are not named.
pub const ZERO: Field = Field::Number(0);
/// Field -1: no first, no next.
pub const NONE: Field = Field::Number(-1);

/// What the lines say so far.
#[derive(Default)]
pub struct Tree<'t> {
    /// The declarations in the order of their rows.
    pub declarations: Vec<Declaration<'t>>,
    pub uses: Vec<Use<'t>>,
    pub nodes: Vec<Node>,
    /// The number of the line that is being read.
    pub line: usize,
}

impl<'t> Tree<'t> {
    /// Adds a node.
    pub fn add(&mut self, kind: i32, fields: [Field; 3]) -> usize {
        self.nodes.push(Node { kind, fields });
        self.nodes.len() - 1
    }

    /// A literal.
    pub fn literal(&mut self, value: i32) -> usize {
        self.add(LITERAL, [Field::Number(value), ZERO, ZERO])
    }

    /// A monadic operator with its operand.
    pub fn monadic(&mut self, operator: i32, operand: usize) -> usize {
        let fields = [Field::Number(operator), Field::Node(operand), ZERO];
        self.add(MONADIC, fields)
    }

    /// A dyadic operator with its operands.
    pub fn dyadic(&mut self, operator: i32, left: usize, right: usize) -> usize {
        let operands = (Field::Node(left), Field::Node(right));
        self.add(DYADIC, [Field::Number(operator), operands.0, operands.1])
    }

    /// An element of a variable.
    pub fn variable(&mut self, element: Element<'t>) -> usize {
        let [name, subscript] = self.named(element, Role::Variable);
        self.add(ELEMENT, [name, subscript, ZERO])
    }

    /// The fields of an element used in this role: its name, and its subscript, 0 if it is bare.
    pub fn named(&mut self, element: Element<'t>, role: Role) -> [Field; 2] {
        self.uses.push(Use {
            name: element.name,
            line: self.line,
            role,
            bare: element.subscript.is_none(),
        });
        let name = Field::Name(self.uses.len() - 1);
        let subscript = element.subscript.unwrap_or_else(|| self.literal(0));
        [name, Field::Node(subscript)]
    }
}
