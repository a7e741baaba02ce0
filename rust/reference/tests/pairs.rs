//! The count of pairs compared (request 03): verdict and count beside a slow search that lists every
//! comparison in its order, and what the generator aims at the count.

mod common;
use common::clashes::{comparisons, Rule};
use common::ends::{end_of_search, pair_count, widths, EVERY_END};
use common::{assert_enough, stored_inputs, table, Tally};
use reference::generate::{generate, Aim};
use reference::kinds::{rows_referred_to, PAR};
use reference::printing::split_input;
use reference::table::{rows_of_bytes, Row};
use reference::{check_bytes_counted, check_rows_counted, Checked};

/// The refusal, if any, and the count.
fn told(checked: &Checked) -> (Option<(u8, u32)>, usize) {
    let refusal = checked.verdict.as_ref().err();
    let place = refusal.map(|refusal| (refusal.number, refusal.place));
    (place, checked.pairs)
}

/// Compares verdict and count on a table's bytes, and on its rows lent as numbers, with the slow
/// search: the count is the position of the first clash, counted from 1, or that of all comparisons.
fn compare(what: &str, table: &[u8]) {
    let found = told(&check_bytes_counted(table));
    let rows = rows_of_bytes(table).unwrap_or_default();
    let numbers = rows.iter().flat_map(|row| [row.kind, row.a, row.b, row.c]);
    let numbers: Vec<i32> = numbers.collect();
    if !numbers.is_empty() {
        assert_eq!(told(&check_rows_counted(&numbers)), found, "{what}");
    }
    let Some(mut comparisons) = comparisons(table, Rule::Constant) else {
        assert_eq!(found.1, 0, "{what}");
        return;
    };
    comparisons.sort_unstable();
    assert_eq!(comparisons.len(), 3 * pair_count(&rows), "{what}");
    let first = comparisons.iter().position(|&(_, clash)| clash);
    let wanted = match first.map(|at| (at, comparisons[at])) {
        Some((at, ((number, par, ..), _))) => (Some((number, par)), at + 1),
        None => (None, comparisons.len()),
    };
    assert_eq!(found, wanted, "{what}");
}

/// The input of a seed: mostly aimed at the count, and what the other tests of usage take.
fn input(seed: u64) -> Vec<u8> {
    let aim = match seed % 8 {
        0..=4 => Some(Aim::Pairs),
        5 => Some(Aim::WithoutAlt),
        6 => Some(Aim::Refusal([7, 8, 9][(seed / 8 % 3) as usize])),
        _ => None,
    };
    let input = generate(seed, !seed.is_multiple_of(3), aim);
    split_input(&input.bytes).0.to_vec()
}

#[test]
fn generated_counts_are_those_of_the_slow_search() {
    for seed in 0..2_000 {
        compare(&format!("seed {seed}"), &input(seed));
    }
}

#[test]
fn stored_counts_are_those_of_the_slow_search() {
    let mut ends = Tally::new();
    for (file, input) in stored_inputs() {
        let (table, _) = split_input(&input);
        compare(&file, table);
        *ends.entry(end_of_search(table)).or_insert(0) += 1;
    }
    assert_enough(&ends, &EVERY_END.map(|end| (end, 2)));
}

/// How many pairs are compared where each member of a PAR clashes with each other in a sort.
#[test]
fn the_search_ends_at_its_first_clash() {
    for count in 2..60 {
        // count outputs to one element: all pairs of sorts 7 and 8, then one
        let mut rows = String::from("2,1,0,0 31,2,0,0");
        for member in 0..count {
            let row = 2 + 4 * member;
            let next = if member + 1 == count { -1 } else { row + 4 };
            rows += &format!(" 40,{},{next},0", row + 1);
            rows += &format!(" 24,0,{},{} 10,0,0,0 10,1,0,0", row + 2, row + 3);
        }
        let found = told(&check_bytes_counted(&table(&rows)));
        let all = (count * (count - 1) / 2) as usize;
        assert_eq!(found, (Some((9, 1)), 2 * all + 1), "{count}");
    }
}

/// Whether a PAR stands beneath another.
fn is_nested(rows: &[Row]) -> bool {
    let mut beneath = vec![false; rows.len()];
    for (index, row) in rows.iter().enumerate() {
        for lower in rows_referred_to(row) {
            beneath[lower] = beneath[index] || row.kind == PAR;
        }
    }
    let mut pars = (0..rows.len()).filter(|&row| rows[row].kind == PAR);
    pars.any(|par| beneath[par])
}

/// Whether the processes of some PAR's members are not in the order of their rows.
fn is_out_of_order(rows: &[Row]) -> bool {
    rows.iter().filter(|row| row.kind == PAR).any(|par| {
        let first = usize::try_from(par.a).ok();
        let links = std::iter::successors(first, |&link| usize::try_from(rows[link].b).ok());
        !links.map(|link| rows[link].a).is_sorted()
    })
}

/// What there is to see of a table aimed at the count.
fn sorts(table: &[u8]) -> Vec<&'static str> {
    let rows = rows_of_bytes(table).expect("rows");
    let widths = widths(&rows);
    let widest = widths.iter().copied().max().unwrap_or(0);
    let comparisons = comparisons(table, Rule::Constant).unwrap_or_default();
    let clashes = comparisons.iter().filter(|&&(_, clash)| clash).count();
    let seen = [
        ("several PARs", widths.len() > 1),
        ("a PAR in a PAR", is_nested(&rows)),
        ("members out of order", is_out_of_order(&rows)),
        ("40 members", widest >= 40),
        ("400 members", widest >= 400),
        ("511 members", widest == 511),
        ("several clashes", clashes > 1),
    ];
    let seen = seen.into_iter().filter(|&(_, seen)| seen);
    let end = end_of_search(table);
    seen.map(|(sort, _)| sort).chain([end]).collect()
}

/// Asks of so many tables aimed at the count for so many of each sort, and five of each end at least.
fn assert_aimed(small: bool, seeds: u64, least: &[(&str, usize)]) {
    let mut tally = Tally::new();
    for seed in 0..seeds {
        let input = generate(seed, small, Some(Aim::Pairs));
        for sort in sorts(split_input(&input.bytes).0) {
            *tally.entry(sort).or_insert(0) += 1;
        }
    }
    assert_enough(&tally, least);
    let ends = EVERY_END.iter().filter(|end| **end != "refused before");
    assert_enough(&tally, &ends.map(|end| (*end, 5)).collect::<Vec<_>>());
}

#[test]
fn large_tables_aimed_at_the_count_are_of_all_sorts() {
    let least = [
        ("several PARs", 250),
        ("a PAR in a PAR", 180),
        ("members out of order", 150),
        ("40 members", 100),
        ("400 members", 12),
        ("511 members", 2),
        ("several clashes", 100),
    ];
    assert_aimed(false, 600, &least);
}

#[test]
fn small_tables_aimed_at_the_count_are_of_all_sorts() {
    let least = [
        ("several PARs", 160),
        ("a PAR in a PAR", 110),
        ("members out of order", 90),
        ("several clashes", 50),
    ];
    assert_aimed(true, 600, &least);
}
