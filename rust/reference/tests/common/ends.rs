//! Where the clash search of a table ends (request 03), told from its verdict and its count of pairs.

use reference::check_bytes_counted;
use reference::kinds::PAR;
use reference::table::{rows_of_bytes, Row};

/// The ends: in each sort a clash at its only pair, at the first, at a middle one, at the last; then
/// those without a clash.
pub const EVERY_END: [&str; 15] = [
    "7 at the only pair",
    "7 at the first pair",
    "7 at a middle pair",
    "7 at the last pair",
    "8 at the only pair",
    "8 at the first pair",
    "8 at a middle pair",
    "8 at the last pair",
    "9 at the only pair",
    "9 at the first pair",
    "9 at a middle pair",
    "9 at the last pair",
    "no pair",
    "no clash",
    "refused before",
];

/// How many members each PAR has, by row; the references of these rows are right.
pub fn widths(rows: &[Row]) -> Vec<usize> {
    let members = |par: &Row| {
        let first = usize::try_from(par.a).ok();
        std::iter::successors(first, |&link| usize::try_from(rows[link].b).ok()).count()
    };
    let pars = rows.iter().filter(|row| row.kind == PAR);
    pars.map(members).collect()
}

/// How many pairs of components the PARs of these rows have together.
pub fn pair_count(rows: &[Row]) -> usize {
    let pairs = |width: usize| width * width.saturating_sub(1) / 2;
    widths(rows).into_iter().map(pairs).sum()
}

/// Where the search ends: at a clash, after all pairs, or before it begins.
pub fn end_of_search(table: &[u8]) -> &'static str {
    let checked = check_bytes_counted(table);
    let number = checked.verdict.as_ref().err().map(|refusal| refusal.number);
    if number.is_some_and(|number| !(7..=9).contains(&number)) {
        return "refused before";
    }
    let all = rows_of_bytes(table).map_or(0, |rows| pair_count(&rows));
    let Some(number) = number else {
        return if all == 0 { "no pair" } else { "no clash" };
    };
    let sort = usize::from(number - 7);
    let place = match checked.pairs - sort * all {
        1 if all == 1 => 0,
        1 => 1,
        last if last == all => 3,
        _ => 2,
    };
    EVERY_END[4 * sort + place]
}
