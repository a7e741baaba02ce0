//! Generated PARs of loops without an end, which write to the host and to each other.

use super::maker::Maker;
use super::random::Random;
use super::rights::{Rights, Share};
use crate::kinds::{CHANNEL, FROM_HOST, INNER, TO_HOST, VARIABLE};
use crate::table::Row;

/// The rows of a PAR of loops without an end: nearly always an accepted table without ALT.
pub fn loops(random: &mut Random, small: bool) -> Vec<Row> {
    let count = match small {
        true => 2,
        false => random.pick(&[2, 2, 3, 4]),
    };
    let locals = random.below(count + 1);
    let variables = locals + if small { count } else { 2 * count };
    let declarations = declarations(random, count, variables);
    let size = match small {
        true => 14,
        false => random.pick(&[60, 100, 200]),
    };
    let carelessness = random.pick(&[0, 0, 2, 5]);
    let mut maker = Maker::by_hand(random, declarations, size);
    maker.style.alt = false;
    maker.style.carelessness = carelessness;
    maker.locals = maker.layout.variables.clone();
    maker.random.shuffle(&mut maker.locals);
    maker.locals.truncate(locals);
    let root = maker.loops_without_end(count);
    maker.rows(root)
}

/// So many variables, and channels for so many loops, one to the host for each, in any order.
fn declarations(random: &mut Random, count: usize, variables: usize) -> Vec<Row> {
    let mut rows = Vec::new();
    for _ in 0..variables {
        rows.push(Row::new(VARIABLE, random.pick(&[1, 1, 2]), 0, 0));
    }
    for _ in 0..count {
        let capacity = random.pick(&[3, 8, 20, 60, 120]);
        rows.push(Row::new(CHANNEL, 1, TO_HOST, capacity));
    }
    for _ in 0..random.below(3) {
        rows.push(Row::new(CHANNEL, 1, FROM_HOST, 0));
    }
    if random.chance(60) {
        let elements = random.between(1, count) as i32;
        rows.push(Row::new(CHANNEL, elements, INNER, 0));
    }
    random.shuffle(&mut rows);
    rows
}

impl Maker<'_> {
    /// A PAR of so many loops without an end; what is done in one pass can happen in each. At times
    /// one more does nothing, so that the table never rests.
    fn loops_without_end(&mut self, count: usize) -> usize {
        let mut parts = self.rights_of_loops(count);
        let locals = self.locals_of(&mut parts);
        let counters: Vec<Option<usize>> = parts
            .iter_mut()
            .map(|part| self.kept_counter(part))
            .collect();
        let mut actions: Vec<Vec<usize>> = vec![Vec::new(); count];
        self.communications_of_a_pass(&mut parts, &mut actions);
        self.processes_of_a_pass(&mut parts, &mut actions);
        let mut members = Vec::new();
        for (component, local) in locals.into_iter().enumerate() {
            let (part, counter) = (&mut parts[component], counters[component]);
            self.end_of_pass(part, counter, &mut actions[component]);
            let process = self.one_or_seq(&actions[component]);
            let body = self.within(local, process);
            members.push(self.without_end(counter, body));
        }
        if self.random.chance(60) {
            let skip = self.skip();
            members.push(self.without_end(None, skip));
        }
        self.par(&members)
    }

    /// Adds communications, at most one from each component.
    fn communications_of_a_pass(&mut self, parts: &mut [Rights], actions: &mut [Vec<usize>]) {
        for sender in 0..parts.len() {
            if self.has_room() && self.random.chance(60) {
                self.communication(parts, actions, sender);
            }
        }
    }

    /// Adds some other processes while there is room.
    fn processes_of_a_pass(&mut self, parts: &mut [Rights], actions: &mut [Vec<usize>]) {
        for _ in 0..self.random.between(1, 2 * parts.len()) {
            if self.has_room() {
                let component = self.random.below(parts.len());
                let process = self.process(&mut parts[component], 2);
                actions[component].push(process);
            }
        }
    }

    /// The rights of the loops: each has channels to the host of its own.
    fn rights_of_loops(&mut self, count: usize) -> Vec<Rights> {
        let cells = self.layout.variables.iter().map(|part| part.length).sum();
        let elements = self.layout.channels.iter().map(|part| part.length).sum();
        let mut rights = Rights::all(cells, elements);
        for &local in &self.locals {
            rights.forbid(local);
        }
        let variables = &self.layout.variables;
        let mut parts = rights.part(count, variables, Share::default(), self.random);
        for (number, strip) in self.layout.strips.iter().enumerate() {
            let element = self.layout.by_row[strip.row].first;
            for (component, part) in parts.iter_mut().enumerate() {
                part.output[element] = component == number % count;
            }
        }
        parts
    }

    /// In larger tables a cell that is kept for counting passes.
    fn kept_counter(&mut self, rights: &mut Rights) -> Option<usize> {
        if self.style.size <= 40 {
            return None;
        }
        let counter = self.counter(rights)?;
        rights.set[counter] = true;
        rights.change[counter] = false;
        Some(counter)
    }

    /// The value of a cell.
    fn cell_read(&mut self, cell: usize) -> usize {
        let (variable, subscript) = self.plain_cell(cell);
        self.element_of(variable, subscript)
    }

    /// Adds what ends a pass: at times an action that stops in a later pass, a write to the host, and
    /// the count.
    fn end_of_pass(
        &mut self,
        rights: &mut Rights,
        counter: Option<usize>,
        actions: &mut Vec<usize>,
    ) {
        let Some(counter) = counter else {
            actions.extend(self.host_write(rights));
            return;
        };
        if self.random.chance(15) {
            actions.extend(self.late_stop(rights, counter));
        }
        let shown = match self.random.chance(50) {
            true => rights.clone(),
            false => rights.reading_cell(counter),
        };
        actions.extend(self.host_write(&shown));
        let (count, one) = (self.cell_read(counter), self.literal(1));
        let sum = self.dyadic(5, count, one);
        let (variable, subscript) = self.plain_cell(counter);
        actions.push(self.assign(variable, subscript, sum));
    }

    /// An assignment that has a zero divisor in one of the first passes.
    fn late_stop(&mut self, rights: &mut Rights, counter: usize) -> Option<usize> {
        let (variable, subscript) = self.target(rights)?;
        let pass = self.random.below(4) as i32;
        let (pass, count) = (self.literal(pass), self.cell_read(counter));
        let divisor = self.dyadic(1, pass, count);
        let sixty = self.literal(60);
        let quotient = self.dyadic(3, sixty, divisor);
        Some(self.assign(variable, subscript, quotient))
    }

    /// A loop without an end; its counter, if it has one, begins with 0.
    fn without_end(&mut self, counter: Option<usize>, body: usize) -> usize {
        let boolean = self.literal(1);
        let repeated = self.while_loop(boolean, body);
        let Some(counter) = counter else {
            return repeated;
        };
        let zero = self.literal(0);
        let (variable, subscript) = self.plain_cell(counter);
        let first = self.assign(variable, subscript, zero);
        self.seq(&[first, repeated])
    }
}
