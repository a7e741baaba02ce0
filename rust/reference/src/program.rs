//! The program that an accepted table's rows form: one tree of processes from the root.

use crate::blocks::check_blocks;
use crate::kinds::{
    check_kinds, declaration_count, ALT, BLOCK, CHOICE, IF, MEMBER, OPTION, PAR, SEQ, WHILE,
};
use crate::limits::{check_limits, Layout, Part};
use crate::references::check_references;
use crate::refusal::Refusal;
use crate::table::Row;
use crate::usage::check_usage;

/// What stands directly above a process that can be started.
#[derive(Clone, Copy, Debug, PartialEq, Eq)]
pub enum Above {
    /// Nothing: the root, or a row that is never started.
    Nothing,
    /// A SEQ, with the process of its next member.
    Seq { seq: usize, next: Option<usize> },
    /// A PAR.
    Par { par: usize },
    /// An IF or ALT, of which this is the process of a choice or option.
    Chooser { row: usize },
    /// A WHILE, of which this is the body.
    While { row: usize },
    /// A block, which ends with this process.
    Block { row: usize },
}

/// An accepted table, with what settling needs to know of its tree.
#[derive(Clone, Debug)]
pub struct Program {
    pub rows: Vec<Row>,
    pub root: usize,
    pub layout: Layout,
    above: Vec<Above>,
    member_count: Vec<usize>,
    /// The processes that can be started, each followed by those beneath it.
    text_order: Vec<usize>,
    /// For each process: its place in the text order, and how many processes it is with those beneath.
    text_place: Vec<usize>,
    text_length: Vec<usize>,
}

impl Program {
    /// The program of a table's rows, or the first of refusals 4, 5, 6, 14, 7, 8 and 9.
    pub fn check(rows: Vec<Row>) -> Result<Program, Refusal> {
        Program::check_counting(rows, &mut 0)
    }

    /// The same; raises `pairs` by one for each pair of components that the clash search compares.
    pub fn check_counting(rows: Vec<Row>, pairs: &mut usize) -> Result<Program, Refusal> {
        check_kinds(&rows)?;
        check_references(&rows)?;
        let layout = check_limits(&rows)?;
        check_blocks(&rows)?;
        check_usage(&rows, &layout, pairs)?;
        Ok(Program::of_accepted(rows, layout))
    }

    /// The program of rows that nothing refuses.
    fn of_accepted(rows: Vec<Row>, layout: Layout) -> Program {
        let count = rows.len();
        let mut program = Program {
            root: declaration_count(&rows),
            rows,
            layout,
            above: vec![Above::Nothing; count],
            member_count: vec![0; count],
            text_order: Vec::new(),
            text_place: vec![0; count],
            text_length: vec![0; count],
        };
        let startable = program.note_what_is_above();
        program.note_text_order(&startable);
        program
    }

    /// Notes for each process what is above it; tells which rows are processes that can be started.
    fn note_what_is_above(&mut self) -> Vec<bool> {
        let mut startable = vec![false; self.rows.len()];
        startable[self.root] = true;
        for row in self.root..self.rows.len() {
            if !startable[row] {
                continue;
            }
            let processes = self.processes_of(row);
            self.member_count[row] = processes.len();
            for (number, &process) in processes.iter().enumerate() {
                startable[process] = true;
                self.above[process] = match self.rows[row].kind {
                    SEQ => Above::Seq {
                        seq: row,
                        next: processes.get(number + 1).copied(),
                    },
                    PAR => Above::Par { par: row },
                    WHILE => Above::While { row },
                    BLOCK => Above::Block { row },
                    _ => Above::Chooser { row },
                };
            }
        }
        startable
    }

    /// Notes the text order: a process, then those beneath it, each part in the order of its list.
    fn note_text_order(&mut self, startable: &[bool]) {
        for row in (self.root..self.rows.len())
            .rev()
            .filter(|&row| startable[row])
        {
            let beneath = self.processes_of(row);
            let length: usize = beneath
                .iter()
                .map(|&process| self.text_length[process])
                .sum();
            self.text_length[row] = length + 1;
        }
        self.text_order = vec![0; self.text_length[self.root]];
        for row in (self.root..self.rows.len()).filter(|&row| startable[row]) {
            self.text_order[self.text_place[row]] = row;
            let mut place = self.text_place[row] + 1;
            for process in self.processes_of(row) {
                self.text_place[process] = place;
                place += self.text_length[process];
            }
        }
    }

    /// The processes directly beneath a process, in the order of its list.
    fn processes_of(&self, row: usize) -> Vec<usize> {
        match self.rows[row].kind {
            SEQ | PAR | IF | ALT => self
                .list_of(row)
                .map(|link| self.process_of(link))
                .collect(),
            WHILE | BLOCK => vec![self.process_within(row)],
            _ => Vec::new(),
        }
    }

    /// The rows of a SEQ's or PAR's members, an IF's choices or an ALT's options, in order.
    pub fn list_of(&self, row: usize) -> impl Iterator<Item = usize> + '_ {
        let first = usize::try_from(self.rows[row].a).ok();
        std::iter::successors(first, |&link| usize::try_from(self.rows[link].b).ok())
    }

    /// The process of a member, choice or option.
    pub fn process_of(&self, link: usize) -> usize {
        debug_assert!(matches!(self.rows[link].kind, MEMBER | CHOICE | OPTION));
        self.rows[link].a as usize
    }

    /// The body of a WHILE, or the process of a block.
    pub fn process_within(&self, row: usize) -> usize {
        debug_assert!(matches!(self.rows[row].kind, WHILE | BLOCK));
        self.rows[row].b as usize
    }

    /// What stands directly above a process.
    pub fn above(&self, process: usize) -> Above {
        self.above[process]
    }

    /// How many members a SEQ or PAR has.
    pub fn member_count(&self, row: usize) -> usize {
        self.member_count[row]
    }

    /// The processes beneath a process, without the rows of guards.
    pub fn processes_beneath(&self, row: usize) -> &[usize] {
        let place = self.text_place[row];
        &self.text_order[place + 1..place + self.text_length[row]]
    }

    /// The cells of the variable, or the elements of the channel, that field a of a row names.
    pub fn part_named_by(&self, row: usize) -> Part {
        self.layout.by_row[self.rows[row].a as usize]
    }

    /// Whether the table has an ALT.
    pub fn has_alt(&self) -> bool {
        self.rows.iter().any(|row| row.kind == ALT)
    }
}
