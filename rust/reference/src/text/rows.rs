//! The rows of a text, numbered from the top: each before the rows of its a, b and c in turn.

use super::outline::Text;
use super::tree::{Field, Tree};
use crate::refusal::Refusal;
use crate::table::{Row, ROWS};

/// The rows of a text whose uses name these rows, or refusal 3 if there are too many.
pub fn numbered(text: &Text<'_>, named: &[usize]) -> Result<Vec<Row>, Refusal> {
    let Tree {
        declarations,
        nodes,
        ..
    } = &text.tree;
    let before = declarations.len();
    if before + nodes.len() > ROWS {
        return Err(Refusal::new(3, ROWS));
    }
    let order = from_the_top(text);
    let mut number = vec![0; nodes.len()];
    for (place, &node) in order.iter().enumerate() {
        number[node] = before + place;
    }
    let field = |field: Field| match field {
        Field::Number(number) => number,
        Field::Name(usage) => named[usage] as i32,
        Field::Node(node) => number[node] as i32,
    };
    let row = |&node: &usize| {
        let [a, b, c] = nodes[node].fields.map(field);
        Row::new(nodes[node].kind, a, b, c)
    };
    let declared = declarations.iter().map(|declared| declared.row);
    Ok(declared.chain(order.iter().map(row)).collect())
}

/// The nodes of a text from the root, each before those of its fields in turn.
fn from_the_top(text: &Text<'_>) -> Vec<usize> {
    let mut order = Vec::new();
    let mut waiting = vec![text.root];
    while let Some(node) = waiting.pop() {
        order.push(node);
        for field in text.tree.nodes[node].fields.iter().rev() {
            if let Field::Node(beneath) = field {
                waiting.push(*beneath);
            }
        }
    }
    order
}
