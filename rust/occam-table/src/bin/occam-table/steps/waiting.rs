//! What is waiting at rest, and why.

use super::moves::Named;
use super::words::{named_words, row_words};
use crate::kinds::{ALT, FROM_HOST, GUARD, IF, INPUT, OUTPUT, SKIP, STOP, TO_HOST};
use crate::program::Program;
use crate::values::{constant, subscript, value};
use occam_table::{RowState, Snapshot};

/// One line for each row that is stopped, or is running and waits.
pub fn at_rest(program: &Program, state: &Snapshot) -> Vec<String> {
    let rest = Rest { program, state };
    (0..state.states.len())
        .filter_map(|row| rest.why(row))
        .collect()
}

/// A state at rest.
struct Rest<'a> {
    program: &'a Program,
    state: &'a Snapshot,
}

impl Rest<'_> {
    /// Why a row does not go on; none if it is not started, has ended, or waits for others beneath.
    fn why(&self, row: usize) -> Option<String> {
        let who = row_words(self.program, row);
        if let RowState::Stopped(reason) = self.state.states[row] {
            return Some(format!(
                "{who} is stopped, reason {}: {reason}",
                reason.number()
            ));
        }
        if self.state.states[row] != RowState::Running {
            return None;
        }
        Some(match self.program.rows[row].kind {
            STOP => format!("{who} never ends"),
            INPUT => format!("{who} waits for {}", self.input_words(row)),
            OUTPUT => format!("{who} waits to {}", self.output_words(row)),
            IF if self.is_idle_beneath(row) => format!("{who} has no true choice"),
            ALT if self.is_idle_beneath(row) => format!("{who} {}", self.alt_words(row)),
            _ => return None,
        })
    }

    fn is_idle_beneath(&self, row: usize) -> bool {
        let beneath = self.program.beneath(row).into_iter();
        let idle = |row: usize| self.state.states[row] == RowState::Idle;
        beneath.into_iter().all(idle)
    }

    /// The channel element that an input or output names.
    fn element(&self, row: usize) -> Named {
        let row = &self.program.rows[row];
        Named {
            declaration: row.a() as usize,
            number: subscript(self.program, &self.state.cells, row.a(), row.b()),
        }
    }

    /// What an input waits for, and why it does not come.
    fn input_words(&self, row: usize) -> String {
        let element = self.element(row);
        let channel = element.declaration;
        if self.program.rows[channel].b() == FROM_HOST {
            let number = self
                .program
                .reading_channels()
                .position(|row| row == channel);
            let taken = number.map_or(0, |number| self.state.places[number]);
            return format!(
                "a reading on {}; the sheet has no more ({taken} taken)",
                self.program.sort_and_name(channel)
            );
        }
        format!(
            "input on {}; {}",
            named_words(self.program, element),
            self.partners(element, OUTPUT, "output")
        )
    }

    /// Where an output waits, and why nobody takes its value.
    fn output_words(&self, row: usize) -> String {
        let element = self.element(row);
        let channel = element.declaration;
        if self.program.rows[channel].b() == TO_HOST {
            let capacity = self.program.rows[channel].c();
            return format!(
                "write to the host on {}; its capacity of {capacity} is used up",
                self.program.sort_and_name(channel)
            );
        }
        format!(
            "output on {}; {}",
            named_words(self.program, element),
            self.partners(element, INPUT, "input")
        )
    }

    /// The rows at the other side of a channel element, and their states.
    fn partners(&self, element: Named, kind: i32, verb: &str) -> String {
        let names = |&row: &usize| self.program.rows[row].kind == kind && self.may_be(row, element);
        let rows: Vec<usize> = (0..self.program.rows.len()).filter(names).collect();
        if rows.is_empty() {
            return format!("nobody can {verb} there");
        }
        let each: Vec<String> = rows
            .iter()
            .map(|&row| format!("{} {}", self.program.place(row), self.state_words(row)))
            .collect();
        let would = format!("nobody is ready to {verb} there");
        format!("{would}: {}", each.join(", "))
    }

    /// Whether an input or output names this channel, and its subscript may be the element.
    fn may_be(&self, row: usize, element: Named) -> bool {
        let row = &self.program.rows[row];
        let same_channel = usize::try_from(row.a()) == Ok(element.declaration);
        let same_number = match (constant(self.program, row.b()), element.number) {
            (Some(value), Some(number)) => usize::try_from(value) == Ok(number),
            _ => true,
        };
        same_channel && same_number
    }

    /// The state of a row at the other side; a guard's input follows its ALT.
    fn state_words(&self, row: usize) -> String {
        if let Some(alt) = self.alt_guarded_by(row) {
            let place = self.program.place(alt);
            return format!("guards {place} (ALT), which {}", self.process_words(alt));
        }
        self.process_words(row).to_string()
    }

    fn process_words(&self, row: usize) -> &'static str {
        match self.state.states[row] {
            RowState::Idle => "is not started",
            RowState::Running => "is running",
            RowState::Ended => "has ended",
            RowState::Stopped(_) => "is stopped",
        }
    }

    /// The ALT of which an input is a guard, or stands in one.
    fn alt_guarded_by(&self, input: usize) -> Option<usize> {
        let mut alts = (0..input).filter(|&row| self.program.rows[row].kind == ALT);
        let guards = |option: usize| {
            let guard = self.program.rows[option].c() as usize;
            let inside = self.program.rows[guard].kind == GUARD
                && self.program.rows[guard].b() as usize == input;
            guard == input || inside
        };
        alts.find(|&alt| self.program.list(alt).into_iter().any(guards))
    }

    /// Why an ALT has no option to take.
    fn alt_words(&self, alt: usize) -> String {
        let options = self.program.list(alt);
        if options.is_empty() {
            return "has no option".to_string();
        }
        let each: Vec<String> = options
            .iter()
            .map(|&option| format!("{} {}", self.option_name(option), self.option_words(option)))
            .collect();
        format!("can take no option: {}", each.join("; "))
    }

    /// The name of an option: its row, or its line of a text.
    fn option_name(&self, option: usize) -> String {
        match self.program.origin {
            Some(_) => format!("that in {}", self.program.place(option)),
            None => format!("option {option}"),
        }
    }

    /// Why an option can't be taken.
    fn option_words(&self, option: usize) -> String {
        let guard = self.program.rows[option].c() as usize;
        let row = &self.program.rows[guard];
        let mut guarded = guard;
        if row.kind == GUARD {
            if value(self.program, &self.state.cells, row.a()) == Some(0) {
                return "has a false boolean".to_string();
            }
            guarded = row.b() as usize;
        }
        match self.program.rows[guarded].kind {
            SKIP => "could be taken".to_string(),
            _ => format!("waits for {}", self.input_words(guarded)),
        }
    }
}
