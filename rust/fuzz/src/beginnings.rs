//! A second call on one table and sheet: without ALT, channel by channel to the host the list of the
//! one is a beginning of the other's, whatever the choices and budgets (request 14).

use crate::random::Random;
use crate::{lists_of, Given};
use occam_table::Machine;
use reference::kinds::ALT;
use reference::table::rows_of_bytes;
use reference::Answer;

/// No greater budget for the second call.
const MOST_STEPS: usize = 128;

/// What was written on one channel to the host; none for an absence.
type List = Vec<Option<i32>>;

/// On how many channels to the host the list of each call is the longer one, and whether both have
/// an absence on some channel.
#[derive(Clone, Copy, Debug, Default, PartialEq, Eq)]
pub struct Ahead {
    pub first: usize,
    pub second: usize,
    pub absences: bool,
}

impl Ahead {
    /// How the lists of two calls stand to one another, channel by channel.
    fn of(lists: &[(List, List)]) -> Ahead {
        let mut ahead = Ahead::default();
        for (one, other) in lists {
            ahead.first += usize::from(one.len() > other.len());
            ahead.second += usize::from(other.len() > one.len());
            ahead.absences |= one.contains(&None) && other.contains(&None);
        }
        ahead
    }
}

/// Compares the lists of an answer with those of a second call, with choices and a budget that follow
/// from the input; nothing is compared if the input is refused or the table has an ALT.
pub fn compare_beginnings(
    given: &Given,
    answer: &Answer,
    machine: &mut Machine,
) -> Result<Option<Ahead>, String> {
    let Answer::Ran(ran) = answer else {
        return Ok(None);
    };
    let rows = rows_of_bytes(&given.table).unwrap_or_default();
    if rows.iter().any(|row| row.kind == ALT) {
        return Ok(None);
    }
    let (choices, budget) = other_choices(given);
    let second = machine
        .run_table(&given.table, &given.sheet, &choices, budget)
        .map_err(|refusal| format!("a second call: {refusal}"))?;
    let lists: Vec<(List, List)> = lists_of(ran).into_iter().zip(second.lists()).collect();
    let apart = |(one, other): &&(List, List)| !one.starts_with(other) && !other.starts_with(one);
    match lists.iter().find(apart) {
        Some((one, other)) => Err(format!(
            "lists {one:?} and, with budget {budget} and choices {choices:?}, {other:?}"
        )),
        None => Ok(Some(Ahead::of(&lists))),
    }
}

/// Other choices and another budget, which follow from the input.
fn other_choices(given: &Given) -> (Vec<u16>, u32) {
    let mut random = Random::of(&given.table);
    random.0 ^= u64::from(given.budget) ^ (given.choices.len() as u64) << 32;
    let budget = random.below(MOST_STEPS + 1);
    let bound = random.pick(&[2, 7, 65_536]);
    let choices = (0..budget).map(|_| random.below(bound) as u16);
    (choices.collect(), budget as u32)
}
