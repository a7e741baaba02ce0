//! A program as a tree of nodes, and its rows in some valid numbering.

use super::random::Random;
use crate::table::Row;

/// A field of a node: a number as it is (a name, an operator, a value, -1), or another node.
#[derive(Clone, Copy, Debug)]
pub enum Slot {
    Number(i32),
    Node(usize),
}

/// A row that has no number yet.
#[derive(Clone, Copy, Debug)]
struct Node {
    kind: i32,
    slots: [Slot; 3],
}

/// Nodes, each of which is beneath at most one other.
#[derive(Clone, Debug, Default)]
pub struct Tree {
    nodes: Vec<Node>,
}

impl Tree {
    /// Adds a node.
    pub fn add(&mut self, kind: i32, a: Slot, b: Slot, c: Slot) -> usize {
        self.nodes.push(Node {
            kind,
            slots: [a, b, c],
        });
        self.nodes.len() - 1
    }

    /// The kind of a node.
    pub fn kind(&self, node: usize) -> i32 {
        self.nodes[node].kind
    }

    /// How many nodes there are.
    pub fn node_count(&self) -> usize {
        self.nodes.len()
    }

    /// The rows: the declarations, then the tree from `root`, each node after the one above it.
    pub fn rows(&self, declarations: &[Row], root: usize, random: &mut Random) -> Vec<Row> {
        let order = self.numbering(root, random);
        let mut number = vec![0; self.nodes.len()];
        for (place, &node) in order.iter().enumerate() {
            number[node] = declarations.len() + place;
        }
        let field = |slot: Slot| match slot {
            Slot::Number(number) => number,
            Slot::Node(node) => number[node] as i32,
        };
        let row = |&node: &usize| {
            let Node { kind, slots } = self.nodes[node];
            Row::new(kind, field(slots[0]), field(slots[1]), field(slots[2]))
        };
        declarations
            .iter()
            .copied()
            .chain(order.iter().map(row))
            .collect()
    }

    /// A valid order of the nodes: depth first, breadth first, random or mixed.
    fn numbering(&self, root: usize, random: &mut Random) -> Vec<usize> {
        let style = random.below(4);
        let mut waiting = vec![root];
        let mut order = Vec::new();
        while !waiting.is_empty() {
            let last = waiting.len() - 1;
            let picked = match style {
                0 => last,
                1 => 0,
                2 => random.below(waiting.len()),
                _ if random.chance(70) => last,
                _ => random.below(waiting.len()),
            };
            let node = waiting.remove(picked);
            order.push(node);
            for slot in self.nodes[node].slots.iter().rev() {
                if let Slot::Node(beneath) = *slot {
                    waiting.push(beneath);
                }
            }
        }
        order
    }
}
