//! Settling, steps and what a run leaves, with the examples of the open points.

mod common;
use common::{outcome, print, ran};
use reference::printing::printed;
use reference::{answer_bytes, Outcome, BUDGET_LIMIT, BUFFER_LENGTHS};

/// The row states of these rows at rest, or when the budget is spent.
fn states(rows: &str, budget: u64) -> Vec<u8> {
    let ran = ran(rows, "\n", &[], budget);
    ran.states[..ran.row_count].to_vec()
}

#[test]
fn settling_without_steps() {
    assert_eq!(states("21,0,0,0", 0), [2]);
    assert_eq!(states("20,0,0,0", 0), [1]);
    assert_eq!(states("30,-1,0,0", 0), [2]);
    assert_eq!(states("31,-1,0,0", 0), [2]);
    assert_eq!(states("32,-1,0,0", 0), [1]);
    assert_eq!(states("34,-1,0,0", 0), [1]);
    assert_eq!(
        states("30,1,0,0 40,2,3,0 21,0,0,0 40,4,-1,0 21,0,0,0", 0),
        [2, 0, 2, 0, 2]
    );
    assert_eq!(
        states("30,1,0,0 40,2,3,0 20,0,0,0 40,4,-1,0 21,0,0,0", 0),
        [1, 0, 1, 0, 0]
    );
    assert_eq!(
        states("31,1,0,0 40,2,3,0 20,0,0,0 40,4,-1,0 21,0,0,0", 0),
        [1, 0, 1, 0, 2]
    );
}

#[test]
fn stop_is_stuck_and_not_broken() {
    assert_eq!(print("20,0,0,0", "\n"), "what,name,at,value\nstuck,0,0,0\n");
    assert_eq!(outcome("32,-1,0,0"), ("stuck", 0));
    assert_eq!(outcome("34,-1,0,0"), ("stuck", 0));
    assert_eq!(
        outcome("32,1,0,0 41,2,-1,3 21,0,0,0 10,0,0,0"),
        ("stuck", 0)
    );
}

#[test]
fn a_while_body_becomes_idle_when_it_ends() {
    let rows = "33,1,2,0 10,1,0,0 30,3,0,0 40,4,-1,0 21,0,0,0";
    assert_eq!(states(rows, 3), [1, 0, 0, 0, 0]);
    let waiting = "33,1,2,0 10,1,0,0 30,3,0,0 40,4,-1,0 20,0,0,0";
    assert_eq!(states(waiting, 9), [1, 0, 1, 0, 1]);
    assert_eq!(outcome(waiting), ("stuck", 1));
    assert_eq!(states("33,1,2,0 10,0,0,0 21,0,0,0", 1), [2, 0, 0]);
}

#[test]
fn an_if_ends_with_its_chosen_process() {
    let rows = "32,1,0,0 41,3,2,4 41,5,-1,6 20,0,0,0 10,0,0,0 21,0,0,0 10,7,0,0";
    assert_eq!(states(rows, 1), [2, 0, 0, 0, 0, 2, 0]);
    assert_eq!(outcome(rows), ("ended", 1));
}

#[test]
fn no_choice_after_the_first_true_one_is_looked_at() {
    let rows = "32,1,0,0 41,2,3,5 21,0,0,0 41,4,-1,6 21,0,0,0 10,1,0,0 13,3,7,8 10,1,0,0 10,0,0,0";
    assert_eq!(outcome(rows), ("ended", 1));
    let before = rows.replace("10,1,0,0 13", "10,0,0,0 13");
    assert_eq!(
        print(&before, "\n"),
        "what,name,at,value\nbroken,0,0,1\nstop,0,0,4\n"
    );
}

#[test]
fn the_range_test_belongs_to_the_subscript() {
    let rows = "1,1,0,0 22,0,2,3 10,5,0,0 13,3,4,5 10,1,0,0 10,0,0,0";
    assert_eq!(
        print(rows, "\n"),
        "what,name,at,value\nbroken,0,0,1\nvar,0,0,\nstop,1,0,2\n"
    );
}

#[test]
fn an_alt_that_would_stop_offers_nothing_else() {
    let rows = "34,1,0,0 42,2,3,4 21,0,0,0 42,5,-1,6 43,7,8,0 21,0,0,0 43,9,10,0 10,1,0,0 \
        21,0,0,0 13,3,11,12 21,0,0,0 10,1,0,0 10,0,0,0";
    assert_eq!(
        print(rows, "\n"),
        "what,name,at,value\nbroken,0,0,1\nstop,0,0,4\n"
    );
}

#[test]
fn a_skip_guard_needs_its_boolean() {
    let rows = "34,1,0,0 42,2,-1,3 21,0,0,0 43,4,5,0 10,0,0,0 21,0,0,0";
    assert_eq!(outcome(rows), ("stuck", 0));
    let taken = rows.replace("10,0,0,0", "10,-4,0,0");
    assert_eq!(outcome(&taken), ("ended", 1));
    assert_eq!(states(&taken, 1), [2, 0, 2, 0, 0, 0]);
}

#[test]
fn a_false_boolean_hides_the_rest_of_its_option() {
    let rows = "2,1,1,0 1,1,0,0 34,3,0,0 42,4,-1,5 21,0,0,0 43,6,7,0 10,0,0,0 23,0,8,9 \
        10,0,0,0 11,1,10,0 10,3,0,0";
    let ran = ran(rows, "0\n5\n", &[], 9);
    assert_eq!((ran.outcome, ran.steps), (Outcome::Stuck, 0));
    let shown = rows.replace("6,7,0 10,0,0,0", "6,7,0 10,1,0,0");
    let ran = common::ran(&shown, "0\n5\n", &[], 9);
    assert_eq!(
        (ran.outcome, ran.steps, ran.states[2]),
        (Outcome::Broken, 1, 12)
    );
}

#[test]
fn a_stop_needs_no_reading_and_no_capacity() {
    let input = "2,1,1,0 1,1,0,0 23,0,3,4 10,0,0,0 11,1,5,0 10,1,0,0";
    assert_eq!(ran(input, "0\n", &[], 9).outcome, Outcome::Broken);
    let output = "2,1,2,0 24,0,2,3 10,0,0,0 12,0,4,0 10,-2147483648,0,0";
    let stopped = ran(output, "\n", &[], 9);
    assert_eq!((stopped.outcome, stopped.states[1]), (Outcome::Broken, 13));
    let full = "2,1,2,0 24,0,2,3 10,0,0,0 10,1,0,0";
    assert_eq!(ran(full, "\n", &[], 9).outcome, Outcome::Stuck);
}

#[test]
fn a_stop_leaves_the_others_going() {
    let rows = "1,2,0,0 31,2,0,0 40,4,3,0 40,8,-1,0 22,0,5,6 10,0,0,0 13,3,7,11 10,1,0,0 \
        22,0,9,10 10,1,0,0 10,9,0,0 10,0,0,0";
    for choices in [[0, 0], [1, 0], [0, 1], [1, 1]] {
        let ran = ran(rows, "\n", &choices, 9);
        assert_eq!(
            (ran.outcome, ran.steps, ran.cells[1]),
            (Outcome::Broken, 2, 9)
        );
        assert_eq!((ran.states[1], ran.states[4], ran.states[8]), (1, 14, 2));
    }
}

#[test]
fn an_absent_reading_unsets_its_target() {
    let rows = "2,1,1,0 1,1,0,0 30,3,0,0 40,4,8,0 23,0,5,6 10,0,0,0 11,1,7,0 10,0,0,0 \
        40,9,-1,0 23,0,10,11 10,0,0,0 11,1,12,0 10,0,0,0";
    let ran = ran(rows, "0\n7\n\n5\n", &[], 9);
    assert_eq!((ran.outcome, ran.steps), (Outcome::Ended, 2));
    assert_eq!((ran.cells[0], ran.marks[0], ran.places[0]), (0, 0, 2));
    assert_eq!(common::ran(rows, "0\n\n7\n", &[], 9).cells[0], 7);
}

#[test]
fn choices_pick_by_row_and_wrap() {
    // PAR of three writes to three host channels, with a budget of one step.
    let rows = "2,1,2,1 2,1,2,1 2,1,2,1 31,4,0,0 40,7,5,0 40,8,6,0 40,9,-1,0 24,2,10,11 \
        24,1,12,13 24,0,14,15 10,0,0,0 10,1,0,0 10,0,0,0 10,1,0,0 10,0,0,0 10,1,0,0";
    for (choice, written) in [(0, 2), (1, 1), (2, 0), (3, 2), (65_535, 2)] {
        let ran = ran(rows, "\n", &[choice, 7, 7, 7, 7, 7], 1);
        assert_eq!((ran.outcome, ran.steps), (Outcome::Spent, 1));
        let counts: Vec<u32> = (0..3).map(|list| u32::from(list == written)).collect();
        assert_eq!(ran.counts[..3], counts, "choice {choice}");
    }
}

#[test]
fn an_option_is_ordered_by_its_own_row() {
    // PAR of an ALT (row 4, option row 8) and an assignment (row 5): the assignment comes first.
    let rows = "1,1,0,0 31,2,0,0 40,4,3,0 40,5,-1,0 34,8,0,0 22,0,6,7 10,0,0,0 10,3,0,0 \
        42,9,-1,10 21,0,0,0 43,11,12,0 10,1,0,0 21,0,0,0";
    assert_eq!(ran(rows, "\n", &[0], 1).marks[0], 1);
    assert_eq!(ran(rows, "\n", &[1], 1).marks[0], 0);
    assert_eq!(outcome(rows), ("ended", 2));
}

#[test]
fn two_options_on_one_waiting_output_are_two_steps() {
    let rows = "2,1,0,0 1,2,0,0 31,3,0,0 40,5,4,0 40,6,-1,0 24,0,7,8 34,9,0,0 10,0,0,0 10,6,0,0 \
        42,11,10,12 42,13,-1,14 21,0,0,0 23,0,15,16 21,0,0,0 23,0,17,18 10,0,0,0 11,1,19,0 \
        10,0,0,0 11,1,20,0 10,0,0,0 10,1,0,0";
    assert_eq!(ran(rows, "\n", &[0], 9).cells[..2], [6, 0]);
    assert_eq!(ran(rows, "\n", &[1], 9).cells[..2], [0, 6]);
    assert_eq!(ran(rows, "\n", &[2], 9).cells[..2], [6, 0]);
}

#[test]
fn spent_only_if_a_step_is_ready() {
    let one = "1,1,0,0 22,0,2,3 10,0,0,0 10,4,0,0";
    assert_eq!(ran(one, "\n", &[], 0).outcome, Outcome::Spent);
    assert_eq!(ran(one, "\n", &[], 0).marks[0], 0);
    assert_eq!(ran(one, "\n", &[], 1).outcome, Outcome::Ended);
    assert_eq!(ran("20,0,0,0", "\n", &[], 0).outcome, Outcome::Stuck);
}

#[test]
fn strips_follow_by_capacity() {
    let rows = "2,1,2,4 1,2,0,0 2,1,2,2 31,4,0,0 40,6,5,0 40,9,-1,0 24,0,7,8 10,0,0,0 10,5,0,0 \
        24,2,10,11 10,0,0,0 10,6,0,0";
    let answer = answer_bytes(
        &common::table(rows),
        b"\n",
        &[],
        BUDGET_LIMIT,
        BUFFER_LENGTHS,
    );
    let ran = ran(rows, "\n", &[], 9);
    assert_eq!(ran.numbers[..7], [5, 0, 0, 0, 6, 0, 0]);
    assert_eq!(ran.counts[..3], [1, 1, 0]);
    let wanted = "what,name,at,value\nended,0,0,2\nvar,1,0,\nvar,1,1,\nout,0,0,5\nout,2,0,6\n\
        cell,1,0,0\ncell,1,1,0\nmark,1,0,0\nmark,1,1,0\nstate,0,0,0\nstate,1,0,0\nstate,2,0,0\n\
        state,3,0,2\nstate,4,0,0\nstate,5,0,0\nstate,6,0,2\nstate,7,0,0\nstate,8,0,0\n\
        state,9,0,2\nstate,10,0,0\nstate,11,0,0\nstrip,0,0,5\nstrip,0,1,0\nstrip,0,2,0\n\
        strip,0,3,0\nstrip,2,0,6\nstrip,2,1,0\nomark,0,0,1\nomark,0,1,0\nomark,0,2,0\nomark,0,3,0\n\
        omark,2,0,1\nomark,2,1,0\ncount,0,0,1\ncount,2,0,1\n";
    assert_eq!(printed(&answer, true), wanted);
}

#[test]
fn a_communication_ends_both_in_one_step() {
    let rows = "2,1,0,0 1,1,0,0 31,3,0,0 40,5,4,0 40,8,-1,0 24,0,6,7 10,0,0,0 10,1,0,0 \
        23,0,9,10 10,0,0,0 11,1,11,0 10,0,0,0";
    let after = ran(rows, "\n", &[], 1);
    assert_eq!(
        (after.outcome, after.states[5], after.states[8]),
        (Outcome::Ended, 2, 2)
    );
}
