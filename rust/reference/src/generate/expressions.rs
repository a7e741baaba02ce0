//! Generated expressions, targets and actions.

use super::maker::Maker;
use super::rights::Rights;
use super::tree::Slot;
use crate::kinds::{
    ASSIGNMENT, DYADIC, ELEMENT, FROM_HOST, GIVEN, INNER, INPUT, LITERAL, MONADIC, OUTPUT, SKIP,
    TO_HOST,
};
use crate::limits::Part;

const NOTHING: Slot = Slot::Number(0);

impl Maker<'_> {
    /// A literal.
    pub fn literal(&mut self, value: i32) -> usize {
        self.tree
            .add(LITERAL, Slot::Number(value), NOTHING, NOTHING)
    }

    /// A literal of some value: mostly small, at times at the edge of 32 bits.
    fn some_literal(&mut self) -> usize {
        let value = match self.random.below(30) {
            0 => self
                .random
                .pick(&[i32::MAX, i32::MIN, i32::MIN + 1, i32::MAX - 1]),
            1 => self
                .random
                .pick(&[65_536, 46_341, -46_341, 32_768, 1 << 30]),
            2..=4 => self.random.below(201) as i32,
            _ => self.random.below(13) as i32 - 3,
        };
        self.literal(value)
    }

    /// A dyadic operation.
    pub fn dyadic(&mut self, operator: i32, left: usize, right: usize) -> usize {
        self.tree.add(
            DYADIC,
            Slot::Number(operator),
            Slot::Node(left),
            Slot::Node(right),
        )
    }

    /// A monadic operation.
    pub fn monadic(&mut self, operator: i32, operand: usize) -> usize {
        self.tree.add(
            MONADIC,
            Slot::Number(operator),
            Slot::Node(operand),
            NOTHING,
        )
    }

    /// An expression of at most this depth.
    pub fn expression(&mut self, rights: &Rights, depth: usize) -> usize {
        if depth == 0 || self.random.chance(40) {
            return self.leaf(rights, depth);
        }
        match self.random.below(23) {
            0..=2 => {
                let operator = i32::from(self.random.chance(40));
                let operand = self.expression(rights, depth - 1);
                self.monadic(operator, operand)
            }
            3..=5 => self.given(rights, depth - 1),
            6..=7 => {
                let operator = self.random.pick(&[3, 4]);
                let left = self.expression(rights, depth - 1);
                let right = match !self.random.chance(10 * self.style.carelessness) {
                    true => {
                        let divisor = self.random.pick(&[2, 3, -2, 7, -1, 10]);
                        self.literal(divisor)
                    }
                    false => self.expression(rights, depth - 1),
                };
                self.dyadic(operator, left, right)
            }
            _ => {
                let any = self.random.below(16) as i32;
                let risky = any < 5 && !self.random.chance(30 + 10 * self.style.carelessness);
                let operator = if risky { 5 + any % 3 } else { any };
                let left = self.expression(rights, depth - 1);
                let right = self.expression(rights, depth - 1);
                self.dyadic(operator, left, right)
            }
        }
    }

    /// A cell that is read, or a literal.
    fn leaf(&mut self, rights: &Rights, depth: usize) -> usize {
        let careless = self.random.chance(self.style.carelessness);
        let cells = rights.read.len();
        let cell = self.random.pick_where(cells, |cell| {
            rights.read[cell] && (careless || rights.set[cell])
        });
        match cell {
            Some(cell) if self.random.chance(60) => self.element(rights, cell, depth),
            _ => self.some_literal(),
        }
    }

    /// GIVEN of some cell that may be read, set or not; a literal if there is none.
    pub fn given(&mut self, rights: &Rights, depth: usize) -> usize {
        match self.any_element(rights, depth) {
            Some(element) => self.monadic(GIVEN, element),
            None => self.some_literal(),
        }
    }

    /// An element: some cell that may be read, set or not; often one that is likely to be unset.
    pub fn any_element(&mut self, rights: &Rights, depth: usize) -> Option<usize> {
        let cells = rights.read.len();
        let unset = self.random.chance(75);
        let may = |cell: usize| rights.read[cell] && !(unset && rights.set[cell]);
        let cell = self.random.pick_where(cells, may)?;
        Some(self.element(rights, cell, depth))
    }

    /// An element: a cell that is read.
    pub fn element(&mut self, rights: &Rights, cell: usize, depth: usize) -> usize {
        let part = part_of(&self.layout.variables, cell);
        let whole = whole(&rights.read, part);
        let subscript = self.subscript(rights, part, cell - part.first, whole, depth);
        self.element_of(part.row, subscript)
    }

    /// An element of a variable by name and subscript.
    pub fn element_of(&mut self, variable: usize, subscript: usize) -> usize {
        self.tree.add(
            ELEMENT,
            Slot::Number(variable as i32),
            Slot::Node(subscript),
            NOTHING,
        )
    }

    /// A cell that may be changed: the variable and a subscript; notes that it is set.
    pub fn target(&mut self, rights: &mut Rights) -> Option<(usize, usize)> {
        let cell = self
            .random
            .pick_where(rights.change.len(), |cell| rights.change[cell])?;
        let part = part_of(&self.layout.variables, cell);
        let whole = whole(&rights.change, part);
        let subscript = self.subscript(rights, part, cell - part.first, whole, 2);
        rights.set[cell] = true;
        Some((part.row, subscript))
    }

    /// A channel element for which `may` holds and whose channel has this role.
    fn channel_element(&mut self, may: &[bool], role: i32) -> Option<usize> {
        let (channels, declarations) = (&self.layout.channels, &self.declarations);
        self.random.pick_where(may.len(), |element| {
            may[element] && declarations[part_of(channels, element).row].b == role
        })
    }

    /// SKIP.
    pub fn skip(&mut self) -> usize {
        self.tree.add(SKIP, NOTHING, NOTHING, NOTHING)
    }

    /// An assignment, if some cell may be changed.
    pub fn assignment(&mut self, rights: &mut Rights) -> Option<usize> {
        let before = rights.clone();
        let (variable, subscript) = self.target(rights)?;
        let expression = self.expression(&before, self.style.depth);
        Some(self.assign(variable, subscript, expression))
    }

    /// An assignment to a variable by name and subscript.
    pub fn assign(&mut self, variable: usize, subscript: usize, expression: usize) -> usize {
        let name = Slot::Number(variable as i32);
        self.tree.add(
            ASSIGNMENT,
            name,
            Slot::Node(subscript),
            Slot::Node(expression),
        )
    }

    /// An input from this channel element, if some cell may be changed.
    pub fn input_from(&mut self, rights: &mut Rights, element: usize) -> Option<usize> {
        let before = rights.clone();
        let part = part_of(&self.layout.channels, element);
        let whole = whole(&rights.input, part);
        let (variable, target_subscript) = self.target(rights)?;
        let target = self.element_of(variable, target_subscript);
        let subscript = self.subscript(&before, part, element - part.first, whole, 2);
        Some(self.input(part.row, subscript, target))
    }

    /// An input from a channel by name and subscript.
    pub fn input(&mut self, channel: usize, subscript: usize, target: usize) -> usize {
        let name = Slot::Number(channel as i32);
        self.tree
            .add(INPUT, name, Slot::Node(subscript), Slot::Node(target))
    }

    /// An output to this channel element; at times of a cell that may be unset.
    pub fn output_to(&mut self, rights: &Rights, element: usize) -> usize {
        let part = part_of(&self.layout.channels, element);
        let whole = whole(&rights.output, part);
        let subscript = self.subscript(rights, part, element - part.first, whole, 2);
        let element = match self.random.chance(50) {
            true => self.any_element(rights, self.style.depth - 1),
            false => None,
        };
        let expression = element.unwrap_or_else(|| self.expression(rights, self.style.depth - 1));
        self.output(part.row, subscript, expression)
    }

    /// An output to a channel by name and subscript.
    pub fn output(&mut self, channel: usize, subscript: usize, expression: usize) -> usize {
        let name = Slot::Number(channel as i32);
        self.tree
            .add(OUTPUT, name, Slot::Node(subscript), Slot::Node(expression))
    }

    /// A host read, if there is a channel for it.
    pub fn host_read(&mut self, rights: &mut Rights) -> Option<usize> {
        let element = self.channel_element(&rights.input, FROM_HOST)?;
        self.input_from(rights, element)
    }

    /// A host write, if there is a channel for it.
    pub fn host_write(&mut self, rights: &Rights) -> Option<usize> {
        let element = self.channel_element(&rights.output, TO_HOST)?;
        Some(self.output_to(rights, element))
    }

    /// An input from an inner channel, whether or not anything outputs to it.
    pub fn inner_input(&mut self, rights: &mut Rights) -> Option<usize> {
        let element = self.channel_element(&rights.input, INNER)?;
        self.input_from(rights, element)
    }

    /// An output to an inner channel, whether or not anything inputs from it.
    pub fn inner_output(&mut self, rights: &Rights) -> Option<usize> {
        let element = self.channel_element(&rights.output, INNER)?;
        Some(self.output_to(rights, element))
    }
}

/// The declaration to which a cell or element belongs.
fn part_of(parts: &[Part], number: usize) -> Part {
    let holds = |part: &&Part| part.positions().contains(&number);
    parts.iter().find(holds).copied().unwrap_or_default()
}

/// Whether the right holds for every number of a name, and there are several.
fn whole(right: &[bool], part: Part) -> bool {
    part.length > 1 && right[part.positions()].iter().all(|&may| may)
}
