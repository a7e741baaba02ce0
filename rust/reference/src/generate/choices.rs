//! Generated IFs and ALTs, with their booleans and guards.

use super::maker::Maker;
use super::rights::Rights;
use super::tree::Slot;
use crate::kinds::{ALT, CHOICE, GUARD, IF, OPTION};

const NOTHING: Slot = Slot::Number(0);

impl Maker<'_> {
    /// A boolean: a comparison, some expression, GIVEN, or a literal.
    pub fn boolean(&mut self, rights: &Rights) -> usize {
        match self.random.below(12) {
            0..=1 => {
                let value = self.random.pick(&[0, 1, 1, 2, -1]);
                self.literal(value)
            }
            2..=3 => self.given(rights, 0),
            4..=5 => self.expression(rights, self.style.depth),
            _ => {
                let operator = self.random.between(8, 15) as i32;
                let left = self.expression(rights, 1);
                let right = self.expression(rights, 1);
                self.dyadic(operator, left, right)
            }
        }
    }

    /// An IF, mostly with a last choice that is true.
    pub fn conditional(&mut self, rights: &mut Rights, depth: usize) -> usize {
        let count = self.random.pick(&[1, 1, 2, 2, 2, 3, 3, 0]);
        let mut parts = Vec::new();
        let mut choices = Vec::new();
        for number in 0..count {
            let boolean = match number + 1 == count && self.random.chance(90) {
                true => self.literal(1),
                false => self.boolean(rights),
            };
            let mut inside = rights.clone();
            let process = self.process_or_block(&mut inside, depth);
            choices.push((process, Slot::Node(boolean)));
            parts.push(inside);
        }
        rights.join(&parts);
        self.list(IF, CHOICE, choices)
    }

    /// An ALT of host inputs, inner inputs and SKIPs, mostly with an option that can be taken.
    pub fn alternative(&mut self, rights: &mut Rights, depth: usize) -> usize {
        let count = self.random.pick(&[0, 1, 1, 1, 2, 2]);
        let mut options: Vec<_> = (0..count)
            .map(|_| self.some_option(rights, depth))
            .collect();
        if self.random.chance(85) {
            let (boolean, skip, process) = (self.literal(1), self.skip(), self.simple(rights));
            let place = self.random.below(options.len() + 1);
            options.insert(place, (process, self.skip_guard(boolean, skip)));
        }
        self.list(ALT, OPTION, options)
    }

    /// An ALT with this input as its only guard.
    pub fn alt_of(&mut self, input: usize) -> usize {
        let option = (self.skip(), Slot::Node(input));
        self.list(ALT, OPTION, vec![option])
    }

    /// A guard of a boolean and SKIP.
    pub fn skip_guard(&mut self, boolean: usize, skip: usize) -> Slot {
        Slot::Node(
            self.tree
                .add(GUARD, Slot::Node(boolean), Slot::Node(skip), NOTHING),
        )
    }

    /// An option on whatever may be input from, or on SKIP.
    pub fn some_option(&mut self, rights: &mut Rights, depth: usize) -> (usize, Slot) {
        let mut inside = rights.clone();
        let input = match self.random.below(3) {
            0 => self.inner_input(&mut inside),
            1 => self.host_read(&mut inside),
            _ => None,
        };
        let guard = match input {
            Some(input) => self.guard(rights, input),
            None => {
                let (boolean, skip) = (self.boolean(rights), self.skip());
                Slot::Node(
                    self.tree
                        .add(GUARD, Slot::Node(boolean), Slot::Node(skip), NOTHING),
                )
            }
        };
        let process = self.process_or_block(&mut inside, depth);
        rights.join(&[inside]);
        (process, guard)
    }

    /// A guard: the input as it is, or with a boolean.
    pub fn guard(&mut self, rights: &Rights, input: usize) -> Slot {
        if self.random.chance(50) {
            return Slot::Node(input);
        }
        let boolean = match self.random.chance(60) {
            true => self.literal(1),
            false => self.boolean(rights),
        };
        Slot::Node(
            self.tree
                .add(GUARD, Slot::Node(boolean), Slot::Node(input), NOTHING),
        )
    }
}
