//! `orders`: many random orders of one table and sheet, and whether they agree.

use crate::arguments::Arguments;
use crate::beginnings::Beginnings;
use crate::input::TEXT;
use crate::kinds::ALT;
use crate::random::Random;
use crate::report::Report;
use crate::results::{end_words, Results};
use crate::run::Asked;
use occam_table::{Machine, Outcome, Refusal, Snapshot, BUDGET};

/// What the orders came to.
#[derive(Default)]
struct Tally {
    /// What those that rest came to.
    results: Results,
    /// Orders that spent the budget.
    spent: u64,
    /// What all of them gave to the host.
    beginnings: Beginnings,
}

impl Tally {
    /// Adds an order: 0 is the desk order.
    fn add(&mut self, order: u64, state: Snapshot) {
        self.beginnings.add(order, &state.lists);
        match state.outcome {
            Outcome::Spent => self.spent += 1,
            _ => self.results.add(order, state),
        }
    }

    /// Whether some orders rest and others don't.
    fn is_mixed(&self) -> bool {
        self.spent > 0 && self.results.first().is_some()
    }

    /// Whether some orders rest and others don't, or rest in different states, or gave lists of
    /// which none is a beginning of the other.
    fn differs(&self) -> bool {
        self.is_mixed() || self.results.differ() || self.beginnings.part()
    }
}

/// The command.
pub fn command(words: &[String]) -> Result<Report, String> {
    let valued = ["--trials", "--seed", "--budget"];
    let arguments = Arguments::part("orders", words, &valued, &[TEXT])?;
    let asked = Asked::read(&arguments, BUDGET)?;
    let trials = arguments.number("--trials")?.unwrap_or(1_000);
    let seed = arguments.number("--seed")?.unwrap_or(1);
    Ok(match tally(&asked, trials, seed) {
        Ok(tally) => Report::accepted(words_of(&asked, trials, &tally)),
        Err(refusal) => asked.refused(refusal),
    })
}

/// Runs the desk order and the random orders.
fn tally(asked: &Asked, trials: u64, seed: u64) -> Result<Tally, Refusal> {
    let mut machine = Machine::new();
    let mut random = Random::new(seed);
    let mut tally = Tally::default();
    let desk = asked.run_with(&mut machine, &[], asked.budget)?;
    tally.add(0, desk.snapshot());
    let mut choices = vec![0; asked.budget as usize];
    for trial in 1..=trials {
        random.fill(&mut choices);
        let run = asked.run_with(&mut machine, &choices, asked.budget)?;
        tally.add(trial, run.snapshot());
    }
    Ok(tally)
}

/// The words about what the orders came to.
fn words_of(asked: &Asked, trials: u64, tally: &Tally) -> String {
    let (program, budget) = (asked.program(), asked.budget);
    let all = format!("the desk order and {trials} random orders");
    let mut text = match tally.results.first() {
        None => format!("{all}: none came to rest within {budget} steps\n"),
        Some(_) if tally.results.differ() => {
            format!("{all} differ: {}", tally.results.words(&program))
        }
        Some(only) if tally.spent == 0 => {
            format!("{all} agree: {}, in one state\n", end_words(only))
        }
        Some(only) => format!("{all}: those that rest agree: {}\n", end_words(only)),
    };
    if tally.is_mixed() {
        let orders = if tally.spent == 1 { "order" } else { "orders" };
        text += &format!("{} {orders} spent {budget} steps\n", tally.spent);
    }
    if tally.spent > 0 {
        text += &tally.beginnings.words(&program);
    }
    let has_alt = program.rows.iter().any(|row| row.kind == ALT);
    text + why_words(has_alt, tally)
}

/// Why the orders agree or differ; nothing where all agree at rest.
fn why_words(has_alt: bool, tally: &Tally) -> &'static str {
    let compared = tally.spent > 0 && !tally.beginnings.are_none();
    match (has_alt, tally.differs()) {
        (true, true) => "there is an ALT, so the order may matter\n",
        (false, true) => "there is no ALT: this must not happen, please report it\n",
        (true, false) if compared => "there is an ALT, so other orders may differ\n",
        (false, false) if compared => "it is proved that they agree, since there is no ALT\n",
        _ => "",
    }
}

#[cfg(test)]
mod tests {
    use super::*;

    /// What orders with these outcomes and lists on one channel came to.
    fn tally(orders: &[(Outcome, &[Option<i32>])]) -> Tally {
        let mut tally = Tally::default();
        for (order, &(outcome, list)) in (0..).zip(orders) {
            let state = Snapshot {
                outcome,
                steps: 5,
                ready: 0,
                cells: Vec::new(),
                states: Vec::new(),
                places: Vec::new(),
                lists: vec![list.to_vec()],
            };
            tally.add(order, state);
        }
        tally
    }

    #[test]
    fn differences_without_alt_are_to_be_reported() {
        let (spent, ended) = (Outcome::Spent, Outcome::Ended);
        let [one, two]: [&[Option<i32>]; 2] = [&[Some(1)], &[Some(2)]];
        for orders in [
            [(spent, one), (spent, two)],
            [(ended, one), (spent, one)],
            [(ended, one), (ended, two)],
        ] {
            let told = why_words(false, &tally(&orders));
            assert!(told.ends_with("please report it\n"), "{told}");
            let told = why_words(true, &tally(&orders));
            assert!(told.ends_with("so the order may matter\n"), "{told}");
        }
    }

    #[test]
    fn agreement_is_proved_without_alt_only() {
        let list = [Some(1), None];
        let orders = [(Outcome::Spent, &list[..1]), (Outcome::Spent, &list[..])];
        let told = why_words(false, &tally(&orders));
        assert!(told.starts_with("it is proved"), "{told}");
        let told = why_words(true, &tally(&orders));
        assert!(told.ends_with("so other orders may differ\n"), "{told}");
        let rest: [(Outcome, &[Option<i32>]); 2] = [(Outcome::Stuck, &[]); 2];
        assert_eq!(why_words(false, &tally(&rest)), "");
    }
}
