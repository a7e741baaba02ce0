//! Generated loops: mostly counted ones, which end.

use super::maker::Maker;
use super::rights::Rights;
use super::tree::Slot;
use crate::kinds::WHILE;
use crate::limits::Part;

const NOTHING: Slot = Slot::Number(0);

impl Maker<'_> {
    /// The variable of a cell, and a literal subscript.
    pub fn plain_cell(&mut self, cell: usize) -> (usize, usize) {
        let holds = |first: usize, length: usize| (first..first + length).contains(&cell);
        let parts = &self.layout.variables;
        let part = parts.iter().find(|part| holds(part.first, part.length));
        let part = part.copied().unwrap_or_default();
        let subscript = self.literal((cell - part.first) as i32);
        (part.row, subscript)
    }

    /// A WHILE.
    pub fn while_loop(&mut self, boolean: usize, process: usize) -> usize {
        self.tree
            .add(WHILE, Slot::Node(boolean), Slot::Node(process), NOTHING)
    }

    /// A loop: mostly counted, at times on some boolean; often with a block as its body.
    pub fn loop_of(&mut self, rights: &mut Rights, depth: usize) -> usize {
        let local = self.some_local(75);
        match (self.counter(rights), local) {
            (_, Some(local)) if self.random.chance(40) => self.endless(rights, local, depth),
            (Some(counter), _) if local.is_some() || self.random.chance(85) => {
                let mut inside = rights.clone();
                inside.set[counter] = true;
                inside.change[counter] = false;
                let process = self.body(&mut inside, local, depth);
                rights.join(&[inside]);
                let times = self.random.pick(&[0, 1, 2, 2, 3, 3, 5]);
                self.counted(rights, counter, times, process, local)
            }
            _ => {
                let boolean = self.boolean(rights);
                let process = self.process_or_block(rights, depth);
                self.while_loop(boolean, process)
            }
        }
    }

    /// A loop without an end of its own, whose body is a block.
    fn endless(&mut self, rights: &mut Rights, local: Part, depth: usize) -> usize {
        let boolean = self.literal(1);
        let body = self.block(rights, local, depth);
        self.while_loop(boolean, body)
    }

    /// What a loop does, with a local or without one.
    fn body(&mut self, inside: &mut Rights, local: Option<Part>, depth: usize) -> usize {
        match local {
            Some(local) => {
                inside.begin(local);
                self.with_local(inside, local, depth)
            }
            None => self.process(inside, depth),
        }
    }

    /// A cell for counting.
    pub fn counter(&mut self, rights: &Rights) -> Option<usize> {
        self.random
            .pick_where(rights.change.len(), |cell| rights.change[cell])
    }

    /// A loop that does a process this many times, counting in a cell; with a local its body is a
    /// block.
    pub fn counted(
        &mut self,
        rights: &mut Rights,
        cell: usize,
        times: i32,
        process: usize,
        local: Option<Part>,
    ) -> usize {
        rights.set[cell] = true;
        let read = |maker: &mut Self| {
            let (variable, subscript) = maker.plain_cell(cell);
            maker.element_of(variable, subscript)
        };
        let zero = self.literal(0);
        let (variable, subscript) = self.plain_cell(cell);
        let first = self.assign(variable, subscript, zero);
        let (count, most) = (read(self), self.literal(times));
        let boolean = self.dyadic(10, count, most);
        let (count, one) = (read(self), self.literal(1));
        let sum = self.dyadic(0, count, one);
        let (variable, subscript) = self.plain_cell(cell);
        let counts = self.assign(variable, subscript, sum);
        let body = self.seq(&[process, counts]);
        let body = self.within(local, body);
        let repeated = self.while_loop(boolean, body);
        self.seq(&[first, repeated])
    }
}
