//! The results in which orders came to rest, and how they differ.

use crate::beginnings::{list_words, order_words};
use crate::program::Program;
use occam_table::Snapshot;

/// Most different results that are kept and shown.
const KEPT: usize = 10;

/// A result, how many orders came to it, and the first of them.
struct Ending {
    state: Snapshot,
    orders: u64,
    first: u64,
}

/// The results of all orders that came to rest.
#[derive(Default)]
pub struct Results {
    kept: Vec<Ending>,
    /// Orders that came to a result that was not kept.
    others: u64,
}

impl Results {
    /// Adds an order that came to rest: 0 is the desk order.
    pub fn add(&mut self, order: u64, state: Snapshot) {
        let known = self.kept.iter().position(|ending| ending.state == state);
        match known {
            Some(number) => self.kept[number].orders += 1,
            None if self.kept.len() == KEPT => self.others += 1,
            None => self.kept.push(Ending {
                state,
                orders: 1,
                first: order,
            }),
        }
    }

    /// The first result, if an order came to rest.
    pub fn first(&self) -> Option<&Snapshot> {
        self.kept.first().map(|ending| &ending.state)
    }

    /// Whether there are several.
    pub fn differ(&self) -> bool {
        self.kept.len() > 1
    }

    /// How many there are, each of them, and how it differs from the first.
    pub fn words(&self, program: &Program) -> String {
        let more = if self.others > 0 { "more than " } else { "" };
        let mut text = format!("{more}{} results\n", self.kept.len());
        for (number, ending) in self.kept.iter().enumerate() {
            text += &format!("result {}: {}\n", number + 1, ending.words());
            if number > 0 {
                text += &difference(program, &self.kept[0].state, &ending.state);
            }
        }
        if self.others > 0 {
            text += &format!("{} orders came to other results\n", self.others);
        }
        text
    }
}

impl Ending {
    /// The result, how many orders came to it, and the first of them.
    fn words(&self) -> String {
        let orders = if self.orders == 1 { "order" } else { "orders" };
        let (end, first) = (end_words(&self.state), order_words(self.first));
        format!("{end}, {} {orders}, first {first}", self.orders)
    }
}

/// Outcome and steps.
pub fn end_words(state: &Snapshot) -> String {
    let steps = if state.steps == 1 { "step" } else { "steps" };
    format!("{} after {} {steps}", state.outcome, state.steps)
}

/// What differs from the first result.
fn difference(program: &Program, first: &Snapshot, other: &Snapshot) -> String {
    let mut text = String::new();
    for variable in program.variables() {
        for (number, cell) in program.part(variable).enumerate() {
            let (was, is) = (first.cells[cell], other.cells[cell]);
            if was != is {
                let [was, is] = [was, is].map(value_words);
                let cell = program.part_words(variable, Some(number));
                text += &format!("  {cell}: {is}, not {was}\n");
            }
        }
    }
    for (at, channel) in program.output_channels().enumerate() {
        let (was, is) = (&first.lists[at], &other.lists[at]);
        if was != is {
            let [was, is] = [was, is].map(|list| list_words(list));
            let name = program.sort_and_name(channel);
            text += &format!("  {name} to the host: {is}, not {was}\n");
        }
    }
    for (at, channel) in program.reading_channels().enumerate() {
        let (was, is) = (first.places[at], other.places[at]);
        if was != is {
            let name = program.sort_and_name(channel);
            text += &format!("  {name} from the host: {is} taken, not {was}\n");
        }
    }
    let rows = (0..first.states.len()).filter(|&row| first.states[row] != other.states[row]);
    text + &other_states(program, rows.collect())
}

/// Words about rows with other states, or about their lines of a text.
fn other_states(program: &Program, rows: Vec<usize>) -> String {
    let (what, mut places) = match &program.origin {
        Some(origin) => (
            "states: other ones in line",
            rows.iter().map(|&row| origin.line(row)).collect(),
        ),
        None => ("row states: other ones in", rows),
    };
    places.dedup();
    let places: Vec<String> = places.iter().map(usize::to_string).collect();
    match places[..] {
        [] => String::new(),
        _ => format!("  {what} {}\n", places.join(", ")),
    }
}

/// A cell's value.
fn value_words(value: Option<i32>) -> String {
    value.map_or("unset".to_string(), |z| z.to_string())
}
