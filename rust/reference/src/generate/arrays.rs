//! Generated PARs whose components have numbers of one array each, which constant subscripts keep
//! apart or make clash.

use super::communications::Passage;
use super::maker::Maker;
use super::rights::{Rights, Share};
use crate::kinds::GIVEN;
use crate::limits::Part;

/// A right over each cell or element.
type Right = fn(&Rights) -> &[bool];

impl Maker<'_> {
    /// A PAR of components that do little but act on their own numbers of one array.
    pub fn parallel_apart(&mut self, rights: &mut Rights) -> usize {
        let count = self.random.pick(&[2, 2, 3]);
        let variables = &self.layout.variables;
        let mut parts = rights.part(count, variables, Share::default(), self.random);
        let locals = self.locals_of(&mut parts);
        let mut actions: Vec<Vec<usize>> = vec![Vec::new(); count];
        self.clashing_subscripts(&mut parts, &mut actions);
        match self.style.alt || self.random.chance(70) {
            true => self.over_each_element(&mut parts, &mut actions),
            false => self.in_cells_apart(&mut parts, &mut actions),
        }
        let mut members = Vec::new();
        for ((part, mut of_one), local) in parts.iter_mut().zip(actions).zip(locals) {
            if of_one.is_empty() || self.random.chance(10) {
                of_one.push(self.simple(part));
            }
            let process = match of_one.len() > 1 && self.random.chance(50) {
                true => self.par(&of_one),
                false => self.one_or_seq(&of_one),
            };
            members.push(self.within(local, process));
        }
        rights.join(&parts);
        self.par(&members)
    }

    /// Adds two actions on one number of an array, if the style shares cells, inputs or outputs. Only
    /// what their subscripts count for makes them clash.
    pub fn clashing_subscripts(&mut self, parts: &mut [Rights], actions: &mut [Vec<usize>]) {
        let Share {
            cells,
            inputs,
            outputs,
        } = self.style.share;
        let names = match (cells, inputs || outputs) {
            (true, _) => self.layout.variables.clone(),
            (_, true) => self.layout.channels.clone(),
            _ => return,
        };
        let Some(name) = self.some_name(&names, |name| name.length > 1) else {
            return;
        };
        let number = self.random.below(name.length) as i32;
        for component in 0..2 {
            let rights = &mut parts[component];
            let subscript = match component {
                0 => self.counting_for(rights, number),
                _ if self.random.chance(50) => self.some_constant(number),
                _ => self.literal(number),
            };
            let value = self.literal(number);
            let action = match component {
                _ if inputs => self.input_to_some_cell(rights, name, subscript),
                _ if outputs => Some(self.output(name.row, subscript, value)),
                1 if self.random.chance(60) => self.cell_used(rights, name, subscript),
                _ => Some(self.assign(name.row, subscript, value)),
            };
            actions[component].extend(action);
        }
    }

    /// An input by name and subscript, if some cell may be changed.
    fn input_to_some_cell(
        &mut self,
        rights: &mut Rights,
        channel: Part,
        subscript: usize,
    ) -> Option<usize> {
        let (variable, cell) = self.target(rights)?;
        let target = self.element_of(variable, cell);
        Some(self.input(channel.row, subscript, target))
    }

    /// An assignment of an element by name and subscript, or of GIVEN, if some cell may be changed.
    fn cell_used(
        &mut self,
        rights: &mut Rights,
        variable: Part,
        subscript: usize,
    ) -> Option<usize> {
        let element = self.element_of(variable.row, subscript);
        let value = match self.random.chance(50) {
            true => self.monadic(GIVEN, element),
            false => element,
        };
        let (target, cell) = self.target(rights)?;
        Some(self.assign(target, cell, value))
    }

    /// Some name for which `fits` holds.
    fn some_name(&mut self, names: &[Part], fits: impl Fn(Part) -> bool) -> Option<Part> {
        let name = self
            .random
            .pick_where(names.len(), |name| fits(names[name]))?;
        Some(names[name])
    }

    /// Some name of whose numbers this right is with several components.
    fn some_array(&mut self, names: &[Part], parts: &[Rights], right: Right) -> Option<Part> {
        let has = |part: &&Rights, name: Part| right(part)[name.positions()].contains(&true);
        self.some_name(names, |name| {
            parts.iter().filter(|part| has(part, name)).count() > 1
        })
    }

    /// Adds a communication over each element of some channel, as far as it can be.
    pub fn over_each_element(&mut self, parts: &mut [Rights], actions: &mut [Vec<usize>]) {
        let channels = self.layout.channels.clone();
        let channel = self.some_array(&channels, parts, |rights| &rights.input);
        for element in channel.unwrap_or_default().positions() {
            let mut passages = self.passages(parts).into_iter();
            let passage = passages.find(|passage| passage.element == element);
            let Some(Passage {
                sender, receiver, ..
            }) = passage
            else {
                continue;
            };
            if let Some(input) = self.input_or_guard(&mut parts[receiver], element) {
                actions[receiver].push(input);
                let output = self.output_to(&parts[sender], element);
                actions[sender].push(output);
            }
        }
    }

    /// An input from this element, at times as the only guard of an ALT.
    fn input_or_guard(&mut self, rights: &mut Rights, element: usize) -> Option<usize> {
        let input = self.input_from(rights, element)?;
        if !self.style.alt || self.random.chance(50) {
            return Some(input);
        }
        Some(self.alt_of(input))
    }

    /// Adds to each component an assignment to one of its own cells of some array.
    pub fn in_cells_apart(&mut self, parts: &mut [Rights], actions: &mut [Vec<usize>]) {
        let variables = self.layout.variables.clone();
        let Some(variable) = self.some_array(&variables, parts, |rights| &rights.change) else {
            return;
        };
        for (part, of_one) in parts.iter_mut().zip(actions) {
            let mut narrowed = part.changing_only(variable);
            of_one.extend(self.assignment(&mut narrowed));
            part.join(&[narrowed]);
        }
    }
}
