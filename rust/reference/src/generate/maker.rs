//! Generated programs: processes that keep to the usage rules and mostly get somewhere.

use super::random::Random;
use super::rights::{Rights, Share};
use super::tree::{Slot, Tree};
use crate::kinds::{
    ALT, BLOCK, CHANNEL, FROM_HOST, IF, INNER, MEMBER, PAR, SEQ, STOP, TO_HOST, VARIABLE, WHILE,
};
use crate::limits::{check_limits, Layout, Part};
use crate::table::Row;

const NOTHING: Slot = Slot::Number(0);
const NONE: Slot = Slot::Number(-1);

/// How a generated program should be.
#[derive(Clone, Copy, Debug)]
pub struct Style {
    /// About how many rows.
    pub size: usize,
    /// How often, in a hundred, something is done that may stop or never go on.
    pub carelessness: usize,
    /// How deep expressions are.
    pub depth: usize,
    /// The kind of construction that it has for certain, if there is a cell to change.
    pub first: i32,
    /// Whether ALTs may be in it.
    pub alt: bool,
    /// How many variables are kept for blocks.
    pub locals: usize,
    /// Whether components of a PAR often have numbers of one array each.
    pub apart: bool,
    /// What components of a PAR share in spite of the usage rules.
    pub share: Share,
}

impl Style {
    /// Whether a program has room for little but a PAR whose components have numbers of one array.
    fn is_bare(&self) -> bool {
        self.apart && self.size <= 40
    }
}

/// Makes one program.
pub struct Maker<'r> {
    pub random: &'r mut Random,
    pub tree: Tree,
    pub declarations: Vec<Row>,
    pub layout: Layout,
    /// The variables that have no block yet and are used nowhere.
    pub locals: Vec<Part>,
    pub style: Style,
}

/// The rows of a generated program; nearly always an accepted table if nothing is shared.
pub fn program(random: &mut Random, style: Style) -> Vec<Row> {
    let declarations = declarations(random, style);
    let layout = check_limits(&declarations).unwrap_or_default();
    let mut locals = layout.variables.clone();
    random.shuffle(&mut locals);
    locals.truncate(style.locals);
    let tree = Tree::default();
    let mut maker = Maker {
        random,
        tree,
        declarations,
        layout,
        locals,
        style,
    };
    let root = maker.root();
    maker.rows(root)
}

/// Some declarations within the limits, in any order; with a PAR at least one inner channel.
fn declarations(random: &mut Random, style: Style) -> Vec<Row> {
    let many = if style.size > 60 { 2 } else { 1 };
    let (variables, channels, host_channels) = match style.is_bare() {
        true => (random.between(1, 2), 0, 2),
        false => (
            random.between(2, 2 + 2 * many),
            random.between(usize::from(style.first == PAR), 1 + many),
            2 + many,
        ),
    };
    let mut rows = Vec::new();
    if style.apart {
        rows.push(Row::new(VARIABLE, random.pick(&[2, 3, 4]), 0, 0));
        rows.push(Row::new(CHANNEL, random.pick(&[2, 2, 3]), INNER, 0));
    }
    for _ in 0..style.locals + variables {
        let cells = random.pick(&[1, 1, 1, 2, 3, 5]);
        rows.push(Row::new(VARIABLE, cells, 0, 0));
    }
    for _ in 0..channels {
        let elements = random.pick(&[1, 1, 2, 3]);
        rows.push(Row::new(CHANNEL, elements, INNER, 0));
    }
    for _ in 0..random.below(host_channels) {
        rows.push(Row::new(CHANNEL, 1, FROM_HOST, 0));
    }
    for _ in 0..random.below(host_channels) {
        let capacity = random.pick(&[0, 1, 3, 5, 8, 8, 20, 60]);
        rows.push(Row::new(CHANNEL, 1, TO_HOST, capacity));
    }
    random.shuffle(&mut rows);
    rows
}

impl<'r> Maker<'r> {
    /// A maker of a program that is put together by hand: without locals, of this size.
    pub fn by_hand(random: &'r mut Random, declarations: Vec<Row>, size: usize) -> Maker<'r> {
        let style = Style {
            size,
            carelessness: 0,
            depth: 2,
            first: PAR,
            alt: true,
            locals: 0,
            apart: false,
            share: Share::default(),
        };
        Maker {
            random,
            tree: Tree::default(),
            layout: check_limits(&declarations).unwrap_or_default(),
            declarations,
            locals: Vec::new(),
            style,
        }
    }

    /// The rows of the program with this root.
    pub fn rows(self, root: usize) -> Vec<Row> {
        self.tree.rows(&self.declarations, root, self.random)
    }
}

impl Maker<'_> {
    /// The root: mostly a SEQ that sets some cells and goes on.
    fn root(&mut self) -> usize {
        let mut rights = Rights::all(self.cell_count(), self.element_count());
        for &local in &self.locals {
            rights.forbid(local);
        }
        if self.random.chance(8) {
            let process = self.process(&mut rights, 3);
            return match self.tree.kind(process) {
                BLOCK => self.seq(&[process]),
                _ => process,
            };
        }
        if self.style.is_bare() && self.random.chance(70) {
            return self.parallel_apart(&mut rights);
        }
        let mut members = Vec::new();
        for _ in 0..self.random.below(if self.style.size > 40 { 4 } else { 2 }) {
            members.extend(self.assignment(&mut rights));
        }
        members.push(match self.style.first {
            PAR if self.style.is_bare() => self.parallel_apart(&mut rights),
            PAR => self.parallel(&mut rights, 2),
            ALT => self.alternative(&mut rights, 2),
            IF => self.conditional(&mut rights, 2),
            WHILE => self.loop_of(&mut rights, 2),
            _ => self.process(&mut rights, 4),
        });
        while self.has_room() {
            members.push(self.process(&mut rights, 4));
            if self.random.chance(10) {
                break;
            }
        }
        self.seq(&members)
    }

    /// How many cells are declared.
    fn cell_count(&self) -> usize {
        self.layout.variables.iter().map(|part| part.length).sum()
    }

    /// How many channel elements are declared.
    fn element_count(&self) -> usize {
        self.layout.channels.iter().map(|part| part.length).sum()
    }

    /// Whether the program has not yet the size asked for.
    pub fn has_room(&self) -> bool {
        self.tree.node_count() + 8 < self.style.size
    }

    /// A process, with at most this many constructions in each other.
    pub fn process(&mut self, rights: &mut Rights, depth: usize) -> usize {
        if depth == 0 || !self.has_room() || self.random.chance(30) {
            return self.simple(rights);
        }
        if let Some(local) = self.some_local(25) {
            return self.block(rights, local, depth - 1);
        }
        match self.random.below(20) {
            0..=3 => self.sequence(rights, depth - 1),
            4..=10 => self.parallel(rights, depth - 1),
            11..=13 => self.conditional(rights, depth - 1),
            14..=16 => self.loop_of(rights, depth - 1),
            _ if self.style.alt => self.alternative(rights, depth - 1),
            _ => self.simple(rights),
        }
    }

    /// A process without others beneath it.
    pub fn simple(&mut self, rights: &mut Rights) -> usize {
        if self.random.chance(self.style.carelessness) {
            return self.waiting_for_ever(rights);
        }
        let made = match self.random.below(20) {
            0 => None,
            1..=6 => self.host_read(rights),
            7..=11 => self.host_write(rights),
            _ => self.assignment(rights),
        };
        made.unwrap_or_else(|| self.skip())
    }

    /// STOP, or a communication that most likely has no other side.
    fn waiting_for_ever(&mut self, rights: &mut Rights) -> usize {
        let made = match self.random.below(3) {
            0 => self.inner_input(rights),
            1 => self.inner_output(rights),
            _ => None,
        };
        made.unwrap_or_else(|| self.tree.add(STOP, NOTHING, NOTHING, NOTHING))
    }

    /// A SEQ of some processes.
    fn sequence(&mut self, rights: &mut Rights, depth: usize) -> usize {
        let count = self.random.pick(&[0, 1, 2, 2, 3, 3, 4]);
        let members: Vec<usize> = (0..count).map(|_| self.process(rights, depth)).collect();
        self.seq(&members)
    }

    /// A SEQ of these processes.
    pub fn seq(&mut self, processes: &[usize]) -> usize {
        self.list(
            SEQ,
            MEMBER,
            processes
                .iter()
                .map(|&process| (process, NOTHING))
                .collect(),
        )
    }

    /// A PAR of these processes.
    pub fn par(&mut self, processes: &[usize]) -> usize {
        self.list(
            PAR,
            MEMBER,
            processes
                .iter()
                .map(|&process| (process, NOTHING))
                .collect(),
        )
    }

    /// A construction with its list of members, choices or options.
    pub fn list(&mut self, kind: i32, link_kind: i32, links: Vec<(usize, Slot)>) -> usize {
        let mut next = NONE;
        for (process, third) in links.into_iter().rev() {
            next = Slot::Node(self.tree.add(link_kind, Slot::Node(process), next, third));
        }
        self.tree.add(kind, next, NOTHING, NOTHING)
    }
}
