//! Generated PARs for the count of pairs compared (request 03): wide ones, several, in one another
//! and beneath other processes; without a clash, or with clashes of any sort at any pair.

use super::maker::Maker;
use super::random::Random;
use super::tree::Slot;
use crate::kinds::{ALT, CHANNEL, CHOICE, GIVEN, IF, INNER, OPTION, VARIABLE};
use crate::limits::Part;
use crate::table::Row;

/// A table of PARs, of about so many rows at most.
pub fn pars(random: &mut Random, most: usize) -> Vec<Row> {
    let declarations = declarations(random, most);
    let mut maker = Maker::by_hand(random, declarations, most);
    let root = maker.some_pars();
    maker.rows(root)
}

/// Variables and channels for the components to have numbers of; at times none.
fn declarations(random: &mut Random, most: usize) -> Vec<Row> {
    let (count, size) = match most > 40 {
        true => (random.pick(&[0, 1, 1, 2, 4]), 64),
        false => (1, 8),
    };
    let variables = vec![Row::new(VARIABLE, size, 0, 0); count];
    let channels = vec![Row::new(CHANNEL, size, INNER, 0); count];
    [variables, channels].concat()
}

/// What the components of a PAR do, each one action after another.
type Components = Vec<Vec<usize>>;

/// A cell or a channel element: its name's row, and its number.
#[derive(Clone, Copy)]
struct Numbered {
    name: usize,
    number: i32,
}

/// All numbers of these names.
fn numbers_of(names: &[Part]) -> Vec<Numbered> {
    let of_one = |name: &Part| {
        let row = name.row;
        (0..name.length as i32).map(move |number| Numbered { name: row, number })
    };
    names.iter().flat_map(of_one).collect()
}

/// The cells and channel elements that no action has yet.
struct Free {
    cells: Vec<Numbered>,
    elements: Vec<Numbered>,
}

impl Maker<'_> {
    /// Some PARs, mostly with a clash or more.
    fn some_pars(&mut self) -> usize {
        let mut free = Free {
            cells: numbers_of(&self.layout.variables),
            elements: numbers_of(&self.layout.channels),
        };
        self.random.shuffle(&mut free.cells);
        self.random.shuffle(&mut free.elements);
        let clashes = match self.declarations.is_empty() {
            true => 0,
            false => self.random.pick(&[0, 0, 1, 1, 1, 1, 2, 3]),
        };
        let widths = self.widths(12 * clashes);
        let components = |width| vec![Vec::new(); width];
        let mut pars: Vec<Components> = widths.into_iter().map(components).collect();
        for _ in 0..clashes {
            self.clash(&mut free, &mut pars);
        }
        self.own_actions(&mut free, &mut pars);
        self.put_together(pars)
    }

    /// How many members each PAR has, with so many rows left over.
    fn widths(&mut self, left_over: usize) -> Vec<usize> {
        let taken = self.declarations.len() + left_over + 1;
        let members = self.style.size.saturating_sub(taken).max(4) / 2;
        match self.random.below(6) {
            0 => vec![members],
            1 => vec![self.random.between(2, members)],
            2 => vec![2; self.random.between(1, 1 + members / 5)],
            3 => {
                let wide = self.random.between(2, 2 + members / 2);
                let mut widths = vec![2, 1, 4, wide];
                self.random.shuffle(&mut widths);
                widths
            }
            _ => {
                let count = self.random.between(1, 4);
                (0..count).map(|_| self.random.below(6)).collect()
            }
        }
    }

    /// Adds two actions that clash, in some sort, to some pair of components of some PAR.
    fn clash(&mut self, free: &mut Free, pars: &mut [Components]) {
        let pair = |par: usize| pars[par].len() > 1;
        let Some(par) = self.random.pick_where(pars.len(), pair) else {
            return;
        };
        let actions = match self.random.below(3) {
            0 => self.clash_of_cells(free),
            1 => self.clash_of_inputs(free),
            _ => self.clash_of_outputs(free),
        };
        let Some(mut actions) = actions else {
            return;
        };
        self.random.shuffle(&mut actions);
        let pair = self.some_pair(pars[par].len());
        for (component, action) in pair.into_iter().zip(actions) {
            pars[par][component].push(action);
        }
    }

    /// Two of so many members: often the first pair, the last, or the first member and the last.
    fn some_pair(&mut self, count: usize) -> [usize; 2] {
        match self.random.below(6) {
            0 => [0, 1],
            1 => [count - 2, count - 1],
            2 => [0, count - 1],
            _ => {
                let second = self.random.between(1, count - 1);
                [self.random.below(second), second]
            }
        }
    }

    /// Two actions that clash by a cell: one changes it and the other uses it, at times both ways.
    fn clash_of_cells(&mut self, free: &mut Free) -> Option<[usize; 2]> {
        let cell = free.cells.pop()?;
        match self.random.below(5) {
            0 => {
                let other = free.cells.pop()?;
                Some([self.copied(cell, other), self.copied(other, cell)])
            }
            1 => Some([self.changed(free, cell)?, self.changed(free, cell)?]),
            _ => Some([self.changed(free, cell)?, self.used(free, cell)?]),
        }
    }

    /// Two inputs from one element.
    fn clash_of_inputs(&mut self, free: &mut Free) -> Option<[usize; 2]> {
        let element = free.elements.pop()?;
        let (one, other) = (free.cells.pop()?, free.cells.pop()?);
        Some([self.received(element, one), self.received(element, other)])
    }

    /// Two outputs to one element.
    fn clash_of_outputs(&mut self, free: &mut Free) -> Option<[usize; 2]> {
        let element = free.elements.pop()?;
        Some([self.sent(element), self.sent(element)])
    }

    /// An action that changes a cell.
    fn changed(&mut self, free: &mut Free, cell: Numbered) -> Option<usize> {
        if self.random.chance(30) {
            let element = free.elements.pop()?;
            return Some(self.received(element, cell));
        }
        let value = self.literal(1);
        let subscript = self.subscript_for(cell);
        Some(self.assign(cell.name, subscript, value))
    }

    /// A process that uses a cell.
    fn used(&mut self, free: &mut Free, cell: Numbered) -> Option<usize> {
        let element = self.cell_named(cell);
        match self.random.below(3) {
            0 => {
                let skip = self.skip();
                Some(self.list(IF, CHOICE, vec![(skip, Slot::Node(element))]))
            }
            1 => {
                let given = self.monadic(GIVEN, element);
                let target = free.cells.pop()?;
                let subscript = self.subscript_for(target);
                Some(self.assign(target.name, subscript, given))
            }
            _ => {
                let channel = free.elements.pop()?;
                let subscript = self.subscript_for(channel);
                Some(self.output(channel.name, subscript, element))
            }
        }
    }

    /// An assignment of one cell to another.
    fn copied(&mut self, from: Numbered, to: Numbered) -> usize {
        let (value, subscript) = (self.cell_named(from), self.subscript_for(to));
        self.assign(to.name, subscript, value)
    }

    /// An input from an element to a cell, at times as an ALT's guard.
    fn received(&mut self, element: Numbered, cell: Numbered) -> usize {
        let (subscript, target) = (self.subscript_for(element), self.cell_named(cell));
        let input = self.input(element.name, subscript, target);
        match self.random.chance(30) {
            true => self.alt_of(input),
            false => input,
        }
    }

    /// An output to an element.
    fn sent(&mut self, element: Numbered) -> usize {
        let (subscript, value) = (self.subscript_for(element), self.literal(1));
        self.output(element.name, subscript, value)
    }

    /// A cell by its name and subscript.
    fn cell_named(&mut self, cell: Numbered) -> usize {
        let subscript = self.subscript_for(cell);
        self.element_of(cell.name, subscript)
    }

    /// A subscript that counts for this number: a literal, a constant, seldom every number.
    fn subscript_for(&mut self, Numbered { number, .. }: Numbered) -> usize {
        match self.random.below(60) {
            0 => self.without_value(1),
            1..=6 => self.some_constant(number),
            _ => self.literal(number),
        }
    }

    /// Adds to none, some or all components an action on what no other has.
    fn own_actions(&mut self, free: &mut Free, pars: &mut [Components]) {
        let often = self.random.pick(&[0, 40, 100]);
        let links: usize = pars.iter().map(|components| 3 + 2 * components.len()).sum();
        let room = self
            .style
            .size
            .saturating_sub(self.declarations.len() + links + 8);
        for actions in pars.iter_mut().flatten() {
            if self.tree.node_count() < room && self.random.chance(often) {
                actions.extend(self.own_action(free));
            }
        }
    }

    /// An action on a cell or an element that no other has.
    fn own_action(&mut self, free: &mut Free) -> Option<usize> {
        match self.random.below(5) {
            0 => Some(self.sent(free.elements.pop()?)),
            1 => Some(self.received(free.elements.pop()?, free.cells.pop()?)),
            _ => {
                let Numbered { name, number } = free.cells.pop()?;
                let (subscript, value) = (self.literal(number), self.literal(1));
                Some(self.assign(name, subscript, value))
            }
        }
    }

    /// The PARs as one process: each in a component of an earlier one, or beside it in a SEQ.
    fn put_together(&mut self, mut pars: Vec<Components>) -> usize {
        let deep = self.random.chance(30);
        let mut beside = Vec::new();
        while let Some(components) = pars.pop() {
            let members: Vec<usize> = components
                .iter()
                .map(|of_one| self.component(of_one))
                .collect();
            let par = self.par(&members);
            let process = self.beneath_some(par);
            let has_members = |par: usize| !pars[par].is_empty();
            let above = match deep {
                true => (0..pars.len()).rev().find(|&par| has_members(par)),
                false if self.random.chance(50) => self.random.pick_where(pars.len(), has_members),
                false => None,
            };
            match above {
                Some(above) => {
                    let component = self.random.below(pars[above].len());
                    pars[above][component].push(process);
                }
                None => beside.push(process),
            }
        }
        self.one_or_seq(&beside)
    }

    /// The process of a component.
    fn component(&mut self, actions: &[usize]) -> usize {
        match actions.is_empty() {
            true => self.skip(),
            false => self.one_or_seq(actions),
        }
    }

    /// A process as it is, or beneath another.
    fn beneath_some(&mut self, process: usize) -> usize {
        let boolean = self.random.below(2) as i32;
        match self.random.below(12) {
            0 => self.seq(&[process]),
            1 => {
                let boolean = self.literal(boolean);
                self.list(IF, CHOICE, vec![(process, Slot::Node(boolean))])
            }
            2 => {
                let boolean = self.literal(boolean);
                self.while_loop(boolean, process)
            }
            3 => {
                let (boolean, skip) = (self.literal(boolean), self.skip());
                let guard = self.skip_guard(boolean, skip);
                self.list(ALT, OPTION, vec![(process, guard)])
            }
            _ => process,
        }
    }
}
