//! How many steps are ready: totals by budget, and what each step of a run shows.

mod common;
use common::{ran, refusal_of, table};
use reference::{Outcome, Source, Traced, BUFFER_LENGTHS, TRACE_LENGTH};

/// The totals of these rows with budgets of 0, 1, 2 and so on, as many as there are wanted ones.
fn totals<const N: usize>(rows: &str, sheet: &str) -> [usize; N] {
    std::array::from_fn(|budget| ran(rows, sheet, &[], budget as u64).ready)
}

/// The trace of these rows: how many were ready and the row taken, step by step.
fn trace(rows: &str, sheet: &str, choices: &[u16], budget: u64) -> Vec<(usize, usize)> {
    let traced = traced(rows, sheet, choices, budget);
    traced.steps.iter().map(|t| (t.ready, t.row)).collect()
}

/// The traced answer of these rows.
fn traced(rows: &str, sheet: &str, choices: &[u16], budget: u64) -> Traced {
    let (table, lists) = (table(rows), [TRACE_LENGTH; 2]);
    let sheet = sheet.as_bytes();
    Source::Bytes(&table).traced(sheet, choices, budget, BUFFER_LENGTHS, lists)
}

/// A PAR of v[0] := 1, v[1] := 2 and v[2] := 3, in rows 5, 8 and 11.
const THREE: &str = "1,3,0,0 31,2,0,0 40,5,3,0 40,8,4,0 40,11,-1,0 22,0,6,7 10,0,0,0 10,1,0,0 \
    22,0,9,10 10,1,0,0 10,2,0,0 22,0,12,13 10,2,0,0 10,3,0,0";

/// An ALT of two options `1 & SKIP` with STOP, in rows 1 and 3.
const TWO_OPTIONS: &str = "34,1,0,0 42,2,3,8 20,0,0,0 42,4,-1,5 20,0,0,0 43,6,7,0 10,1,0,0 \
    21,0,0,0 43,9,10,0 10,1,0,0 21,0,0,0";

/// c ! 1 and c ? x under a row of this kind; the input is row 8.
fn two_ends(kind: i32) -> String {
    format!(
        "2,1,0,0 1,1,0,0 {kind},3,0,0 40,5,4,0 40,8,-1,0 24,0,6,7 10,0,0,0 10,1,0,0 23,0,9,10 \
         10,0,0,0 11,1,11,0 10,0,0,0"
    )
}

/// A PAR of ALT(c ? x | d ? y), c ! 1 and d ! 2; the options are rows 8 and 9.
const TWO_SENDERS: &str = "2,1,0,0 2,1,0,0 1,2,0,0 31,4,0,0 40,7,5,0 40,20,6,0 40,23,-1,0 \
    34,8,0,0 42,10,9,12 42,11,-1,16 21,0,0,0 21,0,0,0 23,0,13,14 10,0,0,0 11,2,15,0 10,0,0,0 \
    23,1,17,18 10,0,0,0 11,2,19,0 10,1,0,0 24,0,21,22 10,0,0,0 10,1,0,0 24,1,24,25 10,0,0,0 \
    10,2,0,0";

/// A PAR of SEQ(z := 1, c ! 1) and c ? x; the assignment is row 9, the input row 15.
const LATE_SENDER: &str = "2,1,0,0 1,1,0,0 1,1,0,0 31,4,0,0 40,6,5,0 40,15,-1,0 30,7,0,0 \
    40,9,8,0 40,12,-1,0 22,1,10,11 10,0,0,0 10,1,0,0 24,0,13,14 10,0,0,0 10,1,0,0 23,0,16,17 \
    10,0,0,0 11,2,18,0 10,0,0,0";

const WHILE_1_SKIP: &str = "33,1,2,0 10,1,0,0 21,0,0,0";

#[test]
fn check_1_three_assignments() {
    assert_eq!(totals(THREE, "\n"), [3, 2, 1, 0, 0]);
}

#[test]
fn check_2_each_option_counts() {
    assert_eq!(totals(TWO_OPTIONS, "\n"), [2, 0, 0]);
    assert_eq!(ran(TWO_OPTIONS, "\n", &[], 1).outcome, Outcome::Stuck);
}

#[test]
fn check_3_a_communication_counts_once() {
    assert_eq!(totals(&two_ends(31), "\n"), [1, 0]);
}

#[test]
fn check_4_a_stop_counts() {
    let rows = "1,1,0,0 22,0,2,3 10,0,0,0 13,3,4,5 10,1,0,0 10,0,0,0";
    assert_eq!(totals(rows, "\n"), [1, 0]);
}

#[test]
fn check_5_an_if_without_a_true_choice() {
    assert_eq!(totals("32,1,0,0 41,2,-1,3 21,0,0,0 10,0,0,0", "\n"), [0]);
}

#[test]
fn check_6_two_ends_one_after_the_other() {
    assert_eq!(totals(&two_ends(30), "\n"), [0]);
}

#[test]
fn check_7_a_loop_that_never_ends() {
    let end = ran(WHILE_1_SKIP, "\n", &[], 65_536);
    assert_eq!((end.outcome, end.ready), (Outcome::Spent, 1));
    assert_eq!(totals(WHILE_1_SKIP, "\n"), [1; 9]);
}

#[test]
fn check_8_an_empty_par() {
    assert_eq!(totals("31,-1,0,0", "\n"), [0]);
}

#[test]
fn check_9_two_senders_and_an_alt() {
    assert_eq!(totals(TWO_SENDERS, "\n"), [2, 0]);
    assert_eq!(ran(TWO_SENDERS, "\n", &[1], 1).ready, 0);
}

#[test]
fn check_10_the_listener_is_found_when_the_sender_appears() {
    assert_eq!(totals(LATE_SENDER, "\n"), [1, 1, 0]);
}

#[test]
fn check_11_host_channels() {
    let read = "2,1,1,0 1,1,0,0 23,0,3,4 10,0,0,0 11,1,5,0 10,0,0,0";
    assert_eq!(totals(read, "0\n"), [0]);
    assert_eq!(totals(read, "0\n5\n"), [1, 0]);
    let write = |capacity| format!("2,1,2,{capacity} 24,0,2,3 10,0,0,0 10,1,0,0");
    assert_eq!(totals(&write(0), "\n"), [0]);
    assert_eq!(totals(&write(1), "\n"), [1, 0]);
    // The second of two writes finds the capacity of 1 used up.
    let two = "2,1,2,1 30,2,0,0 40,4,3,0 40,7,-1,0 24,0,5,6 10,0,0,0 10,1,0,0 24,0,8,9 10,0,0,0 \
        10,2,0,0";
    assert_eq!(totals(two, "\n"), [1, 0]);
}

#[test]
fn check_12_forty_assignments() {
    let mut rows = String::from("1,40,0,0 31,2,0,0");
    for member in 0..40 {
        let row = 2 + 4 * member;
        let next = if member == 39 { -1 } else { row + 4 };
        rows += &format!(
            " 40,{},{next},0 22,0,{},{} 10,{member},0,0 10,7,0,0",
            row + 1,
            row + 2,
            row + 3
        );
    }
    let falling: [usize; 41] = std::array::from_fn(|budget| 40 - budget);
    assert_eq!(totals(&rows, "\n"), falling);
}

#[test]
fn an_alt_that_would_stop_has_one_step() {
    // The boolean of the second option divides by 0.
    let rows = "34,1,0,0 42,2,3,8 20,0,0,0 42,4,-1,5 20,0,0,0 43,6,7,0 13,3,11,12 21,0,0,0 \
        43,9,10,0 10,1,0,0 21,0,0,0 10,1,0,0 10,0,0,0";
    assert_eq!(totals(rows, "\n"), [1, 0]);
    assert_eq!(trace(rows, "\n", &[], 9), [(1, 0)]);
}

#[test]
fn a_trace_tells_the_count_and_the_row_of_each_step() {
    assert_eq!(trace(THREE, "\n", &[], 9), [(3, 5), (2, 8), (1, 11)]);
    assert_eq!(trace(THREE, "\n", &[2, 3], 9), [(3, 11), (2, 8), (1, 5)]);
    assert_eq!(trace(THREE, "\n", &[2], 2), [(3, 11), (2, 5)]);
    assert_eq!(trace(TWO_OPTIONS, "\n", &[], 9), [(2, 1)]);
    assert_eq!(trace(TWO_OPTIONS, "\n", &[1], 9), [(2, 3)]);
    assert_eq!(trace(&two_ends(31), "\n", &[], 9), [(1, 8)]);
    assert_eq!(trace(TWO_SENDERS, "\n", &[3], 9), [(2, 9)]);
    assert_eq!(trace(LATE_SENDER, "\n", &[], 9), [(1, 9), (1, 15)]);
    assert_eq!(trace(WHILE_1_SKIP, "\n", &[], 3), [(1, 0); 3]);
    assert_eq!(trace(WHILE_1_SKIP, "\n", &[], 65_536), [(1, 0); 65_536]);
}

#[test]
fn a_traced_call_is_refused_as_others_are() {
    let refused = |lists, rows: &str, budget| {
        let traced = Source::Bytes(&table(rows)).traced(b"\n", &[], budget, BUFFER_LENGTHS, lists);
        assert!(traced.steps.is_empty());
        refusal_of(&traced.answer)
    };
    let room = TRACE_LENGTH;
    assert_eq!(refused([room - 1, room], "21,0,0,7", 65_537), (1, 0));
    assert_eq!(refused([room, room - 1], "21,0,0,0", 0), (1, 0));
    assert_eq!(refused([room, room + 1], "21,0,0,7", 65_537), (4, 0));
    assert_eq!(refused([room, room], "21,0,0,0", 65_537), (11, 0));
    let mut lengths = BUFFER_LENGTHS;
    lengths[5] -= 1;
    let traced = Source::Numbers(&[21, 0, 0, 0]).traced(b"\n", &[], 0, lengths, [room; 2]);
    assert_eq!(refusal_of(&traced.answer), (1, 0));
}
