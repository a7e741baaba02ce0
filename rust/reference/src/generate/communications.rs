//! Generated PARs: components whose actions and communications can happen in one order.

use super::maker::Maker;
use super::rights::{Rights, Share};
use crate::kinds::{ALT, INNER, OPTION};
use crate::limits::Part;

/// A communication that can be: from one component over an inner element to another.
#[derive(Clone, Copy)]
pub struct Passage {
    pub sender: usize,
    pub element: usize,
    pub receiver: usize,
}

impl Maker<'_> {
    /// A PAR whose components act and communicate in an order that can happen.
    pub fn parallel(&mut self, rights: &mut Rights, depth: usize) -> usize {
        let count = self
            .random
            .pick(&[0, 1, 2, 2, 2, 2, 2, 2, 2, 3, 3, 3, 4, 5]);
        if count < 2 {
            let members: Vec<usize> = (0..count).map(|_| self.process(rights, depth)).collect();
            return self.par(&members);
        }
        let by_subscripts = self.random.chance(50);
        let share = match !by_subscripts && self.random.chance(60) {
            true => self.style.share,
            false => Share::default(),
        };
        let mut parts = rights.part(count, &self.layout.variables, share, self.random);
        let locals = self.locals_of(&mut parts);
        let mut actions: Vec<Vec<usize>> = vec![Vec::new(); count];
        match by_subscripts {
            true => self.clashing_subscripts(&mut parts, &mut actions),
            false => self.clashing_pair(&mut parts, &mut actions),
        }
        if self.style.apart && self.random.chance(60) {
            self.over_each_element(&mut parts, &mut actions);
        }
        if self.style.apart && self.random.chance(60) {
            self.in_cells_apart(&mut parts, &mut actions);
        }
        let (least, most) = if self.style.size > 40 {
            (count, 2 * count + 2)
        } else {
            (1, count)
        };
        for _ in 0..self.random.between(least, most) {
            let component = self.random.below(count);
            let done = match self.random.below(10) {
                0..=4 => self.communication(&mut parts, &mut actions, component),
                5..=7 => self.served(&mut parts, &mut actions, component),
                _ => false,
            };
            if !done {
                let process = self.process(&mut parts[component], depth);
                actions[component].push(process);
            }
            if !self.has_room() {
                break;
            }
        }
        for component in 0..count {
            if actions[component].len() < 2 {
                let process = self.simple(&mut parts[component]);
                actions[component].push(process);
            }
        }
        if self.random.chance(2 * self.style.carelessness) {
            let scrambled = self.random.below(count);
            self.random.shuffle(&mut actions[scrambled]);
        }
        let members: Vec<usize> = actions
            .iter()
            .zip(locals)
            .map(|(of_one, local)| {
                let process = self.one_or_seq(of_one);
                self.within(local, process)
            })
            .collect();
        rights.join(&parts);
        self.par(&members)
    }

    /// For each component of a PAR at times a local, which it may use.
    pub fn locals_of(&mut self, parts: &mut [Rights]) -> Vec<Option<Part>> {
        let mut locals = Vec::new();
        for part in parts {
            let local = self.some_local(30);
            local.into_iter().for_each(|local| part.begin(local));
            locals.push(local);
        }
        locals
    }

    /// Adds two actions that clash, if the style shares inputs or outputs.
    fn clashing_pair(&mut self, parts: &mut [Rights], actions: &mut [Vec<usize>]) {
        let elements = parts[0].input.len();
        if self.style.share.inputs {
            let both = |element: usize| parts[0].input[element] && parts[1].input[element];
            if let Some(element) = self.random.pick_where(elements, both) {
                for component in 0..2 {
                    let input = self.receiving(&mut parts[component], element, 1);
                    actions[component].extend(input);
                }
            }
        }
        if self.style.share.outputs {
            let both = |element: usize| parts[0].output[element] && parts[1].output[element];
            if let Some(element) = self.random.pick_where(elements, both) {
                for component in 0..2 {
                    let output = self.sending(&mut parts[component], element, 1);
                    actions[component].push(output);
                }
            }
        }
    }

    /// A single process as it is, others as a SEQ.
    pub fn one_or_seq(&mut self, processes: &[usize]) -> usize {
        match processes {
            [process] => *process,
            _ => self.seq(processes),
        }
    }

    /// The inner elements that one component may output to and another input from.
    pub fn passages(&self, parts: &[Rights]) -> Vec<Passage> {
        let mut passages = Vec::new();
        let inner = |part: &&Part| self.declarations[part.row].b == INNER;
        for part in self.layout.channels.iter().filter(inner) {
            for element in part.first..part.first + part.length {
                for (sender, sends) in parts.iter().enumerate() {
                    for (receiver, receives) in parts.iter().enumerate() {
                        let passes = sends.output[element] && receives.input[element];
                        if passes && sender != receiver {
                            passages.push(Passage {
                                sender,
                                element,
                                receiver,
                            });
                        }
                    }
                }
            }
        }
        passages
    }

    /// Adds a component's loop over an ALT that takes one output from each of some others.
    fn served(
        &mut self,
        parts: &mut [Rights],
        actions: &mut [Vec<usize>],
        receiver: usize,
    ) -> bool {
        let mut passages = self.passages(parts);
        passages.retain(|passage| passage.receiver == receiver);
        passages.dedup_by_key(|passage| passage.element);
        let counter = self.counter(&parts[receiver]);
        let (Some(counter), true, true) = (counter, self.style.alt, passages.len() > 1) else {
            return false;
        };
        self.random.shuffle(&mut passages);
        passages.truncate(3);
        let mut inside = parts[receiver].clone();
        inside.change[counter] = false;
        inside.set[counter] = true;
        let mut options = Vec::new();
        for passage in &passages {
            let Some(input) = self.input_from(&mut inside, passage.element) else {
                return false;
            };
            let process = self.simple(&mut inside);
            options.push((process, self.guard(&inside, input)));
        }
        for passage in &passages {
            let output = self.output_to(&parts[passage.sender], passage.element);
            actions[passage.sender].push(output);
        }
        parts[receiver].join(&[inside]);
        let alt = self.list(ALT, OPTION, options);
        let serving = self.counted(
            &mut parts[receiver],
            counter,
            passages.len() as i32,
            alt,
            None,
        );
        actions[receiver].push(serving);
        true
    }

    /// Adds a communication between two components, once or in two loops; tells if it could.
    pub fn communication(
        &mut self,
        parts: &mut [Rights],
        actions: &mut [Vec<usize>],
        sender: usize,
    ) -> bool {
        let pairs: Vec<(usize, usize)> = self
            .passages(parts)
            .into_iter()
            .filter(|passage| passage.sender == sender)
            .map(|passage| (passage.element, passage.receiver))
            .collect();
        if pairs.is_empty() {
            return false;
        }
        let (element, receiver) = self.random.pick(&pairs);
        let times = match self.random.chance(25) && self.has_room() {
            true => self.random.between(1, 4) as i32,
            false => 1,
        };
        let Some(input) = self.receiving(&mut parts[receiver], element, times) else {
            return false;
        };
        let output = self.sending(&mut parts[sender], element, times);
        actions[receiver].push(input);
        actions[sender].push(output);
        true
    }

    /// An input, perhaps as an ALT's guard, this many times.
    pub fn receiving(&mut self, rights: &mut Rights, element: usize, times: i32) -> Option<usize> {
        if times > 1 {
            let counter = self.counter(rights)?;
            let mut inside = rights.clone();
            inside.change[counter] = false;
            let input = self.input_from(&mut inside, element)?;
            rights.join(&[inside]);
            return Some(self.counted(rights, counter, times, input, None));
        }
        if self.style.alt && self.random.chance(60) {
            let input = self.input_from(rights, element)?;
            let process = self.simple(rights);
            let guard = self.guard(rights, input);
            let mut options = vec![(process, guard)];
            if self.random.chance(50) {
                let other = self.some_option(rights, 1);
                options.insert(self.random.below(2), other);
            }
            return Some(self.list(ALT, OPTION, options));
        }
        self.input_from(rights, element)
    }

    /// An output, this many times.
    fn sending(&mut self, rights: &mut Rights, element: usize, times: i32) -> usize {
        if times > 1 {
            if let Some(counter) = self.counter(rights) {
                rights.set[counter] = true;
                let output = self.output_to(rights, element);
                return self.counted(rights, counter, times, output, None);
            }
        }
        let outputs: Vec<usize> = (0..times)
            .map(|_| self.output_to(rights, element))
            .collect();
        self.one_or_seq(&outputs)
    }
}
