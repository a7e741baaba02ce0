//! Generated blocks: each around a process, of a variable that is used nowhere else.

use super::maker::Maker;
use super::rights::Rights;
use super::tree::Slot;
use crate::kinds::{BLOCK, CHOICE, IF};
use crate::limits::Part;

const NOTHING: Slot = Slot::Number(0);

impl Maker<'_> {
    /// A block of this variable around a process.
    pub fn block_of(&mut self, variable: usize, process: usize) -> usize {
        let name = Slot::Number(variable as i32);
        self.tree.add(BLOCK, name, Slot::Node(process), NOTHING)
    }

    /// At times, so often in a hundred, a variable that has no block yet and is used nowhere.
    pub fn some_local(&mut self, often: usize) -> Option<Part> {
        match self.random.chance(often) {
            true => self.locals.pop(),
            false => None,
        }
    }

    /// A process in the block of a local, if there is one.
    pub fn within(&mut self, local: Option<Part>, process: usize) -> usize {
        match local {
            Some(local) => self.block_of(local.row, process),
            None => process,
        }
    }

    /// A process, at times in a block, whose variable it may use.
    pub fn process_or_block(&mut self, rights: &mut Rights, depth: usize) -> usize {
        match self.some_local(40) {
            Some(local) => self.block(rights, local, depth),
            None => self.process(rights, depth),
        }
    }

    /// A block around a process that may use the block's variable.
    pub fn block(&mut self, rights: &mut Rights, local: Part, depth: usize) -> usize {
        let mut inside = rights.clone();
        inside.begin(local);
        let process = self.with_local(&mut inside, local, depth);
        rights.join(&[inside]);
        self.block_of(local.row, process)
    }

    /// A process that uses a local: often it takes a sample in some passes only, and shows it.
    pub fn with_local(&mut self, inside: &mut Rights, local: Part, depth: usize) -> usize {
        let mut members = Vec::new();
        if self.random.chance(70) {
            members.push(self.sample(inside, local));
        }
        if self.random.chance(70) {
            members.push(self.process(inside, depth));
        }
        if self.random.chance(70) {
            members.extend(self.shown(inside, local));
        }
        self.one_or_seq(&members)
    }

    /// Sets a local, at times only if some boolean is true.
    fn sample(&mut self, inside: &mut Rights, local: Part) -> usize {
        let sometimes = self.random.chance(50);
        let boolean = sometimes.then(|| self.boolean(inside));
        let mut narrowed = inside.changing_only(local);
        let made = match self.random.chance(40) {
            true => self.host_read(&mut narrowed),
            false => None,
        };
        let sets = match made.or_else(|| self.assignment(&mut narrowed)) {
            Some(sets) => sets,
            None => self.skip(),
        };
        let Some(boolean) = boolean else {
            inside.join(&[narrowed]);
            return sets;
        };
        let (always, skip) = (self.literal(1), self.skip());
        let choices = vec![(sets, Slot::Node(boolean)), (skip, Slot::Node(always))];
        self.list(IF, CHOICE, choices)
    }

    /// Shows a local, set or not: writes it to the host, or keeps whether it is set.
    fn shown(&mut self, inside: &mut Rights, local: Part) -> Option<usize> {
        let narrowed = inside.reading_only(local);
        match self.random.chance(70) {
            true => self.host_write(&narrowed),
            false => None,
        }
        .or_else(|| {
            let cell = self.counter(inside)?;
            let (variable, subscript) = self.plain_cell(cell);
            let given = self.given(&narrowed, 1);
            inside.set[cell] = true;
            Some(self.assign(variable, subscript, given))
        })
    }
}
