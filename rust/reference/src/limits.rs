//! Limits of the declarations (refusal 6), and where each one's cells, elements and strip lie.

use crate::kinds::{declaration_count, CHANNEL, FROM_HOST, TO_HOST, VARIABLE};
use crate::refusal::Refusal;
use crate::table::Row;

/// Most cells of all variables together.
pub const CELLS: usize = 256;
/// Most channel elements of all channels together, host channels too.
pub const ELEMENTS: usize = 256;
/// Most channels of role 1, and of role 2.
pub const HOST_CHANNELS: usize = 8;
/// Most places in all strips together.
pub const CAPACITIES: usize = 1_024;

/// Part of a numbered store that belongs to one declaration.
#[derive(Clone, Copy, Debug, Default, PartialEq, Eq)]
pub struct Part {
    pub row: usize,
    pub first: usize,
    pub length: usize,
}

impl Part {
    /// The position in the store of one number of this name; `None` if it is outside.
    pub fn at(&self, subscript: i32) -> Option<usize> {
        let subscript = usize::try_from(subscript).ok()?;
        (subscript < self.length).then_some(self.first + subscript)
    }

    /// All positions in the store of this name.
    pub fn positions(&self) -> std::ops::Range<usize> {
        self.first..self.first + self.length
    }
}

/// Where the cells, elements, readings and strips of the declarations lie, in row order.
#[derive(Clone, Debug, Default)]
pub struct Layout {
    /// The cells of each variable.
    pub variables: Vec<Part>,
    /// The elements of each channel.
    pub channels: Vec<Part>,
    /// The rows of the channels of role 1.
    pub readings: Vec<usize>,
    /// The strips of the channels of role 2, by capacity.
    pub strips: Vec<Part>,
    /// For each declaration: its cells or elements.
    pub by_row: Vec<Part>,
    /// For each declaration: its number among the channels of role 1 or of role 2.
    pub host_number: Vec<usize>,
}

/// Sums of what the declarations so far take up.
#[derive(Default)]
struct Sums {
    cells: usize,
    elements: usize,
    capacities: usize,
}

/// The layout of the declarations, or refusal 6 at the one that passes a limit.
pub fn check_limits(rows: &[Row]) -> Result<Layout, Refusal> {
    let mut layout = Layout::default();
    let mut sums = Sums::default();
    for (index, row) in rows[..declaration_count(rows)].iter().enumerate() {
        lay_out(&mut layout, &mut sums, index, row);
        let passes = sums.cells > CELLS
            || sums.elements > ELEMENTS
            || sums.capacities > CAPACITIES
            || layout.readings.len() > HOST_CHANNELS
            || layout.strips.len() > HOST_CHANNELS;
        if passes {
            return Err(Refusal::new(6, index));
        }
    }
    Ok(layout)
}

/// Lays out one declaration after those before it.
fn lay_out(layout: &mut Layout, sums: &mut Sums, index: usize, row: &Row) {
    let length = row.a as usize;
    let mut host_number = 0;
    let part = if row.kind == VARIABLE {
        let part = next_part(&mut sums.cells, index, length);
        layout.variables.push(part);
        part
    } else {
        let part = next_part(&mut sums.elements, index, length);
        layout.channels.push(part);
        part
    };
    if row.kind == CHANNEL && row.b == FROM_HOST {
        host_number = layout.readings.len();
        layout.readings.push(index);
    }
    if row.kind == CHANNEL && row.b == TO_HOST {
        host_number = layout.strips.len();
        let strip = next_part(&mut sums.capacities, index, row.c as usize);
        layout.strips.push(strip);
    }
    layout.by_row.push(part);
    layout.host_number.push(host_number);
}

/// The next part of this length, after the sum so far.
fn next_part(sum: &mut usize, row: usize, length: usize) -> Part {
    let first = *sum;
    *sum += length;
    Part { row, first, length }
}
