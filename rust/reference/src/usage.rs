//! Usage in a PAR: no clash of cells, inputs or outputs between components (refusals 7, 8, 9).

use crate::constants::{constants_of, Constant};
use crate::kinds::{rows_referred_to, ASSIGNMENT, ELEMENT, INPUT, OUTPUT, PAR};
use crate::limits::Layout;
use crate::refusal::Refusal;
use crate::table::Row;

/// A set of numbers below 256: cells or channel elements.
#[derive(Clone, Copy, Default, PartialEq, Eq)]
struct NumberSet([u64; 4]);

impl NumberSet {
    /// Adds these numbers.
    fn add(&mut self, numbers: impl IntoIterator<Item = usize>) {
        for number in numbers {
            self.0[number / 64] |= 1 << (number % 64);
        }
    }

    /// Adds all numbers of another set.
    fn add_all(&mut self, other: &NumberSet) {
        for (word, more) in self.0.iter_mut().zip(other.0) {
            *word |= more;
        }
    }

    /// Whether the two sets have a number in common.
    fn meets(&self, other: &NumberSet) -> bool {
        self.0
            .iter()
            .zip(other.0)
            .any(|(word, more)| word & more != 0)
    }
}

/// What a row with all beneath it changes, uses, inputs from and outputs to.
#[derive(Clone, Copy, Default)]
struct Usage {
    changed: NumberSet,
    used: NumberSet,
    inputs: NumberSet,
    outputs: NumberSet,
}

impl Usage {
    /// Adds the usage of another row.
    fn add_all(&mut self, other: &Usage) {
        self.changed.add_all(&other.changed);
        self.used.add_all(&other.used);
        self.inputs.add_all(&other.inputs);
        self.outputs.add_all(&other.outputs);
    }

    /// Whether a cell changed in one of two components is used in the other.
    fn cells_clash(&self, other: &Usage) -> bool {
        self.changed.meets(&other.used) || self.used.meets(&other.changed)
    }

    /// Whether a channel element is input from in both.
    fn inputs_clash(&self, other: &Usage) -> bool {
        self.inputs.meets(&other.inputs)
    }

    /// Whether a channel element is output to in both.
    fn outputs_clash(&self, other: &Usage) -> bool {
        self.outputs.meets(&other.outputs)
    }
}

/// A PAR: its row, and the usage of each of its components, by position in the list of members.
struct Par {
    row: usize,
    components: Vec<Usage>,
}

/// Refusals 7, 8 and 9, in the order of the refusal table: a 7 anywhere before an 8, an 8 before a
/// 9, each at the lowest PAR. No pair of components is compared after the clash; `pairs` is raised
/// by one for each pair that is compared (request 03).
pub fn check_usage(rows: &[Row], layout: &Layout, pairs: &mut usize) -> Result<(), Refusal> {
    let pars = pars_of(rows, &usages_of(rows, layout));
    compare_pairs(7, &pars, Usage::cells_clash, pairs)?;
    compare_pairs(8, &pars, Usage::inputs_clash, pairs)?;
    compare_pairs(9, &pars, Usage::outputs_clash, pairs)
}

/// Compares the pairs of components of each PAR in one sort, by first, then second member, up to
/// the first clash.
fn compare_pairs(
    number: u8,
    pars: &[Par],
    clash: impl Fn(&Usage, &Usage) -> bool,
    pairs: &mut usize,
) -> Result<(), Refusal> {
    for Par { row, components } in pars {
        for (first, one) in components.iter().enumerate() {
            for other in &components[first + 1..] {
                *pairs += 1;
                if clash(one, other) {
                    return Err(Refusal::new(number, *row));
                }
            }
        }
    }
    Ok(())
}

/// The PARs by row.
fn pars_of(rows: &[Row], usages: &[Usage]) -> Vec<Par> {
    let pars = rows.iter().enumerate().filter(|(_, row)| row.kind == PAR);
    pars.map(|(row, par)| Par {
        row,
        components: components_of(rows, usages, par),
    })
    .collect()
}

/// The usage of each component of a PAR.
fn components_of(rows: &[Row], usages: &[Usage], par: &Row) -> Vec<Usage> {
    let mut components = Vec::new();
    let mut next = par.a;
    while let Ok(member) = usize::try_from(next) {
        components.push(usages[rows[member].a as usize]);
        next = rows[member].b;
    }
    components
}

/// The usage of each row with all beneath it, from the last row up: references go to higher rows.
fn usages_of(rows: &[Row], layout: &Layout) -> Vec<Usage> {
    let constants = constants_of(rows);
    let mut usages = vec![Usage::default(); rows.len()];
    for index in (layout.by_row.len()..rows.len()).rev() {
        let mut usage = own_usage(rows, layout, &constants, &rows[index]);
        for beneath in rows_referred_to(&rows[index]) {
            usage.add_all(&usages[beneath]);
        }
        usages[index] = usage;
    }
    usages
}

/// What the row itself changes, uses, inputs from or outputs to.
fn own_usage(rows: &[Row], layout: &Layout, constants: &[Constant], row: &Row) -> Usage {
    let mut usage = Usage::default();
    match row.kind {
        ELEMENT => add_numbers(&mut usage.used, layout, constants, row),
        ASSIGNMENT => change(&mut usage, layout, constants, row),
        INPUT => {
            add_numbers(&mut usage.inputs, layout, constants, row);
            change(&mut usage, layout, constants, &rows[row.c as usize]);
        }
        OUTPUT => add_numbers(&mut usage.outputs, layout, constants, row),
        _ => {}
    }
    usage
}

/// Changes what an assignment or an input's target names; a changed cell is used too.
fn change(usage: &mut Usage, layout: &Layout, constants: &[Constant], row: &Row) {
    add_numbers(&mut usage.changed, layout, constants, row);
    add_numbers(&mut usage.used, layout, constants, row);
}

/// Adds the numbers of the name in field a that count with the subscript in field b: a constant's
/// value if it is inside, and every number with no value or no constant.
fn add_numbers(set: &mut NumberSet, layout: &Layout, constants: &[Constant], row: &Row) {
    let part = layout.by_row[row.a as usize];
    match constants[row.b as usize] {
        Some(Ok(subscript)) => set.add(part.at(subscript)),
        Some(Err(_)) | None => set.add(part.positions()),
    }
}
