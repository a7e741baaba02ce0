//! Lent buffers of any length, full of numbers that no run leaves.

use crate::same;
use occam_table::Lent;
use reference::Answer;

/// Seven buffers to lend.
pub struct Lending {
    cells: Vec<i32>,
    marks: Vec<u8>,
    states: Vec<u8>,
    places: Vec<u32>,
    numbers: Vec<i32>,
    counts: Vec<u32>,
    output_marks: Vec<u8>,
}

impl Lending {
    /// Buffers of these lengths.
    pub fn new(lengths: [usize; 7]) -> Lending {
        Lending {
            cells: vec![-77_777; lengths[0]],
            marks: vec![77; lengths[1]],
            states: vec![77; lengths[2]],
            places: vec![77_777; lengths[3]],
            numbers: vec![-77_777; lengths[4]],
            counts: vec![77_777; lengths[5]],
            output_marks: vec![77; lengths[6]],
        }
    }

    /// Lends all seven.
    pub fn lend(&mut self) -> Lent<'_> {
        Lent {
            cells: &mut self.cells,
            marks: &mut self.marks,
            states: &mut self.states,
            places: &mut self.places,
            numbers: &mut self.numbers,
            counts: &mut self.counts,
            output_marks: &mut self.output_marks,
        }
    }

    /// Compares with what this answer leaves: a run changes all below the limits and nothing
    /// past them, a refusal nothing.
    pub fn compare(&self, what: &str, answer: &Answer) -> Result<(), String> {
        let lengths = [
            self.cells.len(),
            self.marks.len(),
            self.states.len(),
            self.places.len(),
            self.numbers.len(),
            self.counts.len(),
            self.output_marks.len(),
        ];
        let wanted = Lending::new(lengths).after(answer);
        same_numbers(what, "cells", &self.cells, &wanted.cells)?;
        same_numbers(what, "marks", &self.marks, &wanted.marks)?;
        same_numbers(what, "states", &self.states, &wanted.states)?;
        same_numbers(what, "places", &self.places, &wanted.places)?;
        same_numbers(what, "numbers", &self.numbers, &wanted.numbers)?;
        same_numbers(what, "counts", &self.counts, &wanted.counts)?;
        let (marks, wanted) = (&self.output_marks, &wanted.output_marks);
        same_numbers(what, "output marks", marks, wanted)
    }

    /// The same buffers after an answer of the separate program.
    fn after(mut self, answer: &Answer) -> Lending {
        if let Answer::Ran(ran) = answer {
            self.cells[..256].copy_from_slice(&ran.cells);
            self.marks[..256].copy_from_slice(&ran.marks);
            self.states[..1_024].copy_from_slice(&ran.states);
            self.places[..8].copy_from_slice(&ran.places);
            self.numbers[..1_024].copy_from_slice(&ran.numbers);
            self.counts[..8].copy_from_slice(&ran.counts);
            self.output_marks[..1_024].copy_from_slice(&ran.output_marks);
        }
        self
    }
}

/// That two buffers are equal, or words about the first position where they differ.
pub fn same_numbers<T>(what: &str, name: &str, proved: &[T], wanted: &[T]) -> Result<(), String>
where
    T: Copy + PartialEq + std::fmt::Debug,
{
    let mut pairs = proved.iter().zip(wanted);
    match pairs.position(|(one, other)| one != other) {
        Some(at) => same(&format!("{what}, {name} {at}"), proved[at], wanted[at]),
        None => Ok(()),
    }
}
