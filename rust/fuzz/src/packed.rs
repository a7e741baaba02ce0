//! Answers of the separate program as the library packs them.

use reference::{Answer, Checked, Outcome, Refusal, Traced};

/// A refusal: its number, and 65,536 times its place.
pub fn packed_refusal(refusal: &Refusal) -> u64 {
    u64::from(refusal.number) + 65_536 * u64::from(refusal.place)
}

/// A verdict: 0, or a refusal.
pub fn packed_verdict<T>(verdict: &Result<T, Refusal>) -> u64 {
    verdict.as_ref().err().map_or(0, packed_refusal)
}

/// A verdict in the low 32 bits, the count of pairs compared in the high 32.
pub fn packed_checked(checked: &Checked) -> u64 {
    packed_verdict(&checked.verdict) + ((checked.pairs as u64) << 32)
}

/// A run: 256 times the outcome, 65,536 times the steps, 2 to the power of 40 times how many are
/// ready after it.
fn packed_run(outcome: Outcome, steps: u64, ready: usize) -> u64 {
    let outcome = match outcome {
        Outcome::Ended => 1,
        Outcome::Stuck => 2,
        Outcome::Broken => 3,
        Outcome::Spent => 4,
    };
    256 * outcome + 65_536 * steps + ((ready as u64) << 40)
}

/// An answer: a refusal, or a run.
pub fn packed_answer(answer: &Answer) -> u64 {
    match answer {
        Answer::Refused(refusal) => packed_refusal(refusal),
        Answer::Ran(ran) => packed_run(ran.outcome, ran.steps, ran.ready),
    }
}

/// The answer with another budget, at most that of the traced run: spent if that run goes on.
pub fn packed_answer_at(budget: u32, traced: &Traced) -> u64 {
    match traced.steps.get(budget as usize) {
        Some(next) => packed_run(Outcome::Spent, u64::from(budget), next.ready),
        None => packed_answer(&traced.answer),
    }
}
