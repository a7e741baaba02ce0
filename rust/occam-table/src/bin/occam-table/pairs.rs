//! The count of pairs compared in words, with how long the check took.

use crate::kinds::PAR;
use crate::program::Program;
use occam_table::{Checked, Refusal};
use std::time::Duration;

/// What the pairs of each sort are compared for, in the order of the search.
const SORTS: [&str; 3] = ["cells", "inputs", "outputs"];

/// Two lines: the count with where the search ended, and the time that the check took.
pub fn words(checked: &Checked, program: &Program, time: Duration) -> String {
    format!(
        "pairs of components compared: {}{}\ntime of the check: {}\n",
        checked.pairs,
        end_words(checked, program),
        time_words(time)
    )
}

/// Where the search for a clash ended.
fn end_words(checked: &Checked, program: &Program) -> String {
    let sorts = || by_sort(checked.pairs, pair_count(program));
    match checked.verdict {
        Ok(()) if checked.pairs == 0 => "; no PAR has two members".to_string(),
        Ok(()) => format!(" ({}); none clashes", sorts()),
        Err(Refusal { number: 7..=9, .. }) => format!(
            " ({}); the last one clashes, and none after it was compared",
            sorts()
        ),
        Err(_) => "; the table is refused before the search for a clash".to_string(),
    }
}

/// How many pairs were compared in each sort, of so many there are in each.
fn by_sort(pairs: u32, all: u32) -> String {
    let mut left = pairs;
    let compared = SORTS.map(|sort| {
        let in_sort = left.min(all);
        left -= in_sort;
        (in_sort > 0).then(|| format!("{in_sort} of {all} for {sort}"))
    });
    let compared: Vec<String> = compared.into_iter().flatten().collect();
    compared.join(", ")
}

/// How many pairs of components the PARs of a table have together.
fn pair_count(program: &Program) -> u32 {
    let pars = (0..program.rows.len()).filter(|&row| program.rows[row].kind == PAR);
    let pairs = pars.map(|par| {
        let members = program.list(par).len() as u32;
        members * members.saturating_sub(1) / 2
    });
    pairs.sum()
}

/// A time in a unit that gives a number below a thousand.
fn time_words(time: Duration) -> String {
    match time.as_nanos() {
        ..1_000 => "less than a microsecond".to_string(),
        1_000..1_000_000 => format!("{} microseconds", time.as_micros()),
        1_000_000..1_000_000_000 => format!("{:.1} milliseconds", time.as_secs_f64() * 1e3),
        _ => format!("{:.1} seconds", time.as_secs_f64()),
    }
}

#[cfg(test)]
mod tests {
    use super::*;

    #[test]
    fn sorts() {
        assert_eq!(by_sort(1, 15), "1 of 15 for cells");
        assert_eq!(by_sort(15, 15), "15 of 15 for cells");
        assert_eq!(by_sort(16, 15), "15 of 15 for cells, 1 of 15 for inputs");
        let all = "3 of 3 for cells, 3 of 3 for inputs, 3 of 3 for outputs";
        assert_eq!(by_sort(9, 3), all);
    }

    #[test]
    fn times() {
        let words = |nanoseconds| time_words(Duration::from_nanos(nanoseconds));
        assert_eq!(words(999), "less than a microsecond");
        assert_eq!(words(61_700), "61 microseconds");
        assert_eq!(words(1_840_000), "1.8 milliseconds");
        assert_eq!(words(2_100_000_000), "2.1 seconds");
    }
}
