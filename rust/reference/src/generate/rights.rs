//! What a part of a generated program may change, read, input from and output to.

use super::random::Random;
use crate::limits::Part;

/// The cells and elements that a component may use without a clash.
#[derive(Clone, Debug)]
pub struct Rights {
    pub change: Vec<bool>,
    pub read: Vec<bool>,
    /// The cells that are likely to be set by now.
    pub set: Vec<bool>,
    pub input: Vec<bool>,
    pub output: Vec<bool>,
}

/// What the components of a PAR share in spite of the usage rules.
#[derive(Clone, Copy, Debug, Default)]
pub struct Share {
    pub cells: bool,
    pub inputs: bool,
    pub outputs: bool,
}

impl Rights {
    /// All rights over this many cells and elements, with no cell set.
    pub fn all(cells: usize, elements: usize) -> Rights {
        Rights {
            change: vec![true; cells],
            read: vec![true; cells],
            set: vec![false; cells],
            input: vec![true; elements],
            output: vec![true; elements],
        }
    }

    /// The rights of the components of a PAR; what is not shared is parted among them.
    pub fn part(
        &self,
        count: usize,
        variables: &[Part],
        share: Share,
        random: &mut Random,
    ) -> Vec<Rights> {
        let mut parts = vec![self.clone(); count];
        if !share.cells {
            for variable in variables {
                part_cells(&mut parts, *variable, random);
            }
        }
        let in_turn = random.chance(50);
        for element in 0..self.input.len() {
            let inputs = match in_turn {
                true => element % count,
                false => random.below(count),
            };
            let outputs = (inputs + 1 + random.below(count - 1)) % count;
            for (number, part) in parts.iter_mut().enumerate() {
                part.input[element] &= share.inputs || number == inputs;
                part.output[element] &= share.outputs || number == outputs;
            }
        }
        parts
    }

    /// Forbids the cells of a variable.
    pub fn forbid(&mut self, variable: Part) {
        self.change[variable.positions()].fill(false);
        self.read[variable.positions()].fill(false);
    }

    /// Allows all cells of a block's variable, which are unset at its start.
    pub fn begin(&mut self, local: Part) {
        self.change[local.positions()].fill(true);
        self.read[local.positions()].fill(true);
        self.set[local.positions()].fill(false);
    }

    /// The same rights, but to change this variable only.
    pub fn changing_only(&self, variable: Part) -> Rights {
        let mut narrowed = self.clone();
        let others = |cell: &usize| !variable.positions().contains(cell);
        for cell in (0..self.change.len()).filter(others) {
            narrowed.change[cell] = false;
        }
        narrowed
    }

    /// The same rights, but to read this variable only, as if it were unset.
    pub fn reading_only(&self, variable: Part) -> Rights {
        let mut narrowed = self.clone();
        let others = |cell: &usize| !variable.positions().contains(cell);
        for cell in (0..self.read.len()).filter(others) {
            narrowed.read[cell] = false;
        }
        narrowed.set[variable.positions()].fill(false);
        narrowed
    }

    /// The same rights, but to read this cell only, which is set.
    pub fn reading_cell(&self, cell: usize) -> Rights {
        let mut narrowed = self.clone();
        narrowed.read.fill(false);
        narrowed.read[cell] = true;
        narrowed
    }

    /// Takes over which cells the components have set.
    pub fn join(&mut self, parts: &[Rights]) {
        for part in parts {
            for (set, also) in self.set.iter_mut().zip(&part.set) {
                *set |= also;
            }
        }
    }
}

/// Parts the cells of one variable: all to one component, in turn, each to some, or only for reading.
fn part_cells(parts: &mut [Rights], variable: Part, random: &mut Random) {
    let (way, first) = (random.below(4), random.below(parts.len()));
    let only_read = random.chance(20);
    for cell in variable.positions() {
        let owner = match way {
            0..=1 => first,
            2 => (first + cell) % parts.len(),
            _ => random.below(parts.len()),
        };
        for (number, part) in parts.iter_mut().enumerate() {
            part.change[cell] &= !only_read && number == owner;
            part.read[cell] &= only_read || number == owner;
        }
    }
}
