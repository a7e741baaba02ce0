//! Absence handed on and GIVEN (request 01): the checks of its note, and all orders of a table in
//! which absences pass.

mod common;
use common::{outcome, print, ran, refusal_of, refused, table};
use reference::explore::{explore, Finding};
use reference::{answer_bytes, check_bytes, Outcome, BUDGET_LIMIT, BUFFER_LENGTHS};

/// The run on paper with another output: a ? x, then b ! this expression, in row 12.
fn relay(expression: &str) -> String {
    format!(
        "2,1,1,0 2,1,2,4 1,1,0,0 30,4,0,0 40,5,9,0 23,0,6,7 10,0,0,0 11,2,8,0 10,0,0,0 \
         40,10,-1,0 24,1,11,12 10,0,0,0 {expression}"
    )
}

/// The element x in row 12.
const X: &str = "11,2,13,0 10,0,0,0";
/// GIVEN x in row 12.
const GIVEN_X: &str = "12,2,13,0 11,2,14,0 10,0,0,0";
/// x + 5 in row 12.
const X_PLUS_5: &str = "13,0,13,15 11,2,14,0 10,0,0,0 10,5,0,0";

/// What the sheet runner prints for these lines after the line of names.
fn lines(lines: &[&str]) -> String {
    format!("what,name,at,value\n{}\n", lines.join("\n"))
}

#[test]
fn checks_1_to_3_an_element_passes_its_absence_and_a_sum_does_not() {
    let absent = print(&relay(X), "0\n\n");
    assert_eq!(absent, lines(&["ended,0,0,2", "var,2,0,", "out,1,0,"]));
    let zero = print(&relay(X), "0\n0\n");
    assert_eq!(zero, lines(&["ended,0,0,2", "var,2,0,0", "out,1,0,0"]));
    let sum = print(&relay(X_PLUS_5), "0\n\n");
    assert_eq!(sum, lines(&["broken,0,0,2", "var,2,0,", "stop,10,0,1"]));
    for (sheet, mark) in [("0\n\n", 0), ("0\n0\n", 1)] {
        let ran = ran(&relay(X), sheet, &[], 9);
        assert_eq!((ran.counts[0], ran.numbers[0]), (1, 0));
        assert_eq!(ran.output_marks[..3], [mark, 0, 0]);
    }
}

#[test]
fn check_4_the_receivers_target_becomes_unset() {
    // PAR of c ! x and SEQ(y := 7, c ? y)
    let rows = "2,1,0,0 1,1,0,0 1,1,0,0 31,4,0,0 40,5,9,0 24,0,6,7 10,0,0,0 11,1,8,0 10,0,0,0 \
        40,10,-1,0 30,11,0,0 40,12,15,0 22,2,13,14 10,0,0,0 10,7,0,0 40,16,-1,0 23,0,17,18 \
        10,0,0,0 11,2,19,0 10,0,0,0";
    assert_eq!(
        print(rows, "\n"),
        lines(&["ended,0,0,2", "var,1,0,", "var,2,0,"])
    );
    assert_eq!(ran(rows, "\n", &[], 1).cells[1], 7);
    assert_eq!(ran(rows, "\n", &[], 2).cells[1], 0);
}

#[test]
fn check_5_given_tells_whether_a_cell_is_set() {
    for (sheet, given) in [("0\n\n", 0), ("0\n5\n", 1), ("0\n0\n", 1)] {
        let ran = ran(&relay(GIVEN_X), sheet, &[], 9);
        assert_eq!(ran.outcome, Outcome::Ended);
        assert_eq!((ran.numbers[0], ran.output_marks[0]), (given, 1));
    }
}

#[test]
fn check_6_a_subscript_of_given_can_fail() {
    // y := GIVEN x[1 / 0], then y := GIVEN x[1] of one cell
    let divides = "1,1,0,0 1,1,0,0 22,1,3,4 10,0,0,0 12,2,5,0 11,0,6,0 13,3,7,8 10,1,0,0 10,0,0,0";
    let stopped = |reason| lines(&["broken,0,0,1", "var,0,0,", "var,1,0,", reason]);
    assert_eq!(print(divides, "\n"), stopped("stop,2,0,4"));
    let outside = "1,1,0,0 1,1,0,0 22,1,3,4 10,0,0,0 12,2,5,0 11,0,6,0 10,1,0,0";
    assert_eq!(print(outside, "\n"), stopped("stop,2,0,2"));
}

#[test]
fn check_7_the_operand_of_given() {
    // y := GIVEN of the row of this number; row 4 is a literal, row 5 the operator.
    let given =
        |operand: i32| format!("1,1,0,0 22,0,2,3 10,0,0,0 13,0,4,5 10,1,0,0 12,2,{operand},0");
    for operand in 0..=5 {
        assert_eq!(refused(&given(operand)), (4, 5), "{operand}");
    }
    for operand in [-1, -2, 6, i32::MAX, i32::MIN] {
        assert_eq!(refused(&given(operand)), (5, 5), "{operand}");
    }
    // A lower element, to which the assignment refers; then one to which nothing else does.
    let lower = "1,1,0,0 22,0,2,3 10,0,0,0 11,0,4,0 12,2,3,0";
    assert_eq!(refused(lower), (5, 4));
    let lower_alone = "1,1,0,0 22,0,2,4 10,0,0,0 11,0,5,0 12,2,3,0 10,0,0,0";
    assert_eq!(refused(lower_alone), (5, 3));
}

#[test]
fn check_8_the_buffer_of_output_marks() {
    let bytes = table(&relay(X));
    for (length, refusal) in [
        (0, (1, 0)),
        (1_023, (1, 0)),
        (1_024, (0, 0)),
        (1_030, (0, 0)),
    ] {
        let mut lengths = BUFFER_LENGTHS;
        lengths[6] = length;
        let answer = answer_bytes(&bytes, b"0\n\n", &[], BUDGET_LIMIT, lengths);
        assert_eq!(refusal_of(&answer), refusal, "{length}");
    }
}

#[test]
fn check_9_an_option_takes_an_absence() {
    // PAR of c ! x and ALT(c ? y SKIP)
    let rows = "2,1,0,0 1,1,0,0 1,1,0,0 31,4,0,0 40,5,9,0 24,0,6,7 10,0,0,0 11,1,8,0 10,0,0,0 \
        40,10,-1,0 34,11,0,0 42,12,-1,13 21,0,0,0 23,0,14,15 10,0,0,0 11,2,16,0 10,0,0,0";
    assert_eq!(
        print(rows, "\n"),
        lines(&["ended,0,0,1", "var,1,0,", "var,2,0,"])
    );
}

/// b ! x, then b ! this expression in row 11; b has this capacity.
fn two_writes(capacity: i32, expression: &str) -> String {
    format!(
        "2,1,2,{capacity} 1,1,0,0 30,3,0,0 40,4,8,0 24,0,5,6 10,0,0,0 11,1,7,0 10,0,0,0 \
         40,9,-1,0 24,0,10,11 10,0,0,0 {expression}"
    )
}

#[test]
fn checks_10_and_13_an_absence_takes_up_capacity() {
    let (absence, five) = ("11,1,12,0 10,0,0,0", "10,5,0,0");
    for expression in [absence, five] {
        let waiting = two_writes(1, expression);
        assert_eq!(
            print(&waiting, "\n"),
            lines(&["stuck,0,0,1", "var,1,0,", "out,0,0,"])
        );
        assert_eq!(ran(&waiting, "\n", &[], 9).counts[0], 1);
        assert_eq!(outcome(&two_writes(0, expression)), ("stuck", 0));
    }
    let both = two_writes(2, five);
    assert_eq!(
        print(&both, "\n"),
        lines(&["ended,0,0,2", "var,1,0,", "out,0,0,", "out,0,1,5"])
    );
}

#[test]
fn check_11_given_uses_its_element() {
    // PAR of x := 1 and y := GIVEN x
    let rows = "1,1,0,0 1,1,0,0 31,3,0,0 40,4,7,0 22,0,5,6 10,0,0,0 10,1,0,0 40,8,-1,0 \
        22,1,9,10 10,0,0,0 12,2,11,0 11,0,12,0 10,0,0,0";
    assert_eq!(refused(rows), (7, 2));
}

#[test]
fn check_12_only_the_elements_own_cell_may_be_unset() {
    // b ! a[i] and b ! x[7] of two cells; b ! x + 0, b ! - x and y := x; c[9] ! x
    for (rows, row, reason) in [
        (
            "2,1,2,1 1,2,0,0 1,1,0,0 24,0,4,5 10,0,0,0 11,1,6,0 11,2,7,0 10,0,0,0",
            3,
            1,
        ),
        ("2,1,2,1 1,2,0,0 24,0,3,4 10,0,0,0 11,1,5,0 10,7,0,0", 2, 2),
        (
            "2,1,2,1 1,1,0,0 24,0,3,4 10,0,0,0 13,0,5,7 11,1,6,0 10,0,0,0 10,0,0,0",
            2,
            1,
        ),
        (
            "2,1,2,1 1,1,0,0 24,0,3,4 10,0,0,0 12,0,5,0 11,1,6,0 10,0,0,0",
            2,
            1,
        ),
        ("1,1,0,0 1,1,0,0 22,1,3,4 10,0,0,0 11,0,5,0 10,0,0,0", 2, 1),
        ("2,1,0,0 1,1,0,0 24,0,3,4 10,9,0,0 11,1,5,0 10,0,0,0", 2, 2),
    ] {
        let ran = ran(rows, "\n", &[], 9);
        assert_eq!((ran.outcome, ran.steps), (Outcome::Broken, 1), "{rows}");
        assert_eq!(ran.states[row], 10 + reason, "{rows}");
    }
}

/// PAR of SEQ(a ? x[0], c[0] ! x[0]), SEQ(e ? x[1], c[1] ! x[1]) and
/// SEQ(c[0] ? y[0], c[1] ? y[1], b ! y[0], b ! GIVEN y[1], b ! y[1]).
const TWO_RELAYS: &str = "2,1,1,0 2,1,1,0 2,2,0,0 1,2,0,0 1,2,0,0 2,1,2,3 31,7,0,0 40,8,19,0 \
    30,9,0,0 40,10,14,0 23,0,11,12 10,0,0,0 11,3,13,0 10,0,0,0 40,15,-1,0 24,2,16,17 10,0,0,0 \
    11,3,18,0 10,0,0,0 40,20,31,0 30,21,0,0 40,22,26,0 23,1,23,24 10,0,0,0 11,3,25,0 10,1,0,0 \
    40,27,-1,0 24,2,28,29 10,1,0,0 11,3,30,0 10,1,0,0 40,32,-1,0 30,33,0,0 40,34,38,0 \
    23,2,35,36 10,0,0,0 11,4,37,0 10,0,0,0 40,39,43,0 23,2,40,41 10,1,0,0 11,4,42,0 10,1,0,0 \
    40,44,48,0 24,5,45,46 10,0,0,0 11,4,47,0 10,0,0,0 40,49,54,0 24,5,50,51 10,0,0,0 12,2,52,0 \
    11,4,53,0 10,1,0,0 40,55,-1,0 24,5,56,57 10,0,0,0 11,4,58,0 10,1,0,0";

#[test]
fn all_orders_agree_where_absences_pass() {
    let program = check_bytes(&table(TWO_RELAYS)).expect("accepted");
    let readings = [None, Some(0), Some(5)];
    let field = |reading: Option<i32>| reading.map_or(String::new(), |value| value.to_string());
    for first in readings {
        for second in readings {
            let sheet = format!("0,1\n{},{}\n", field(first), field(second));
            let found = explore(&program, sheet.as_bytes(), 10_000).expect("a sheet");
            let Finding::Agree {
                orders,
                length,
                outcome,
            } = found
            else {
                panic!("{found} for {sheet:?}");
            };
            // The second read can be the first, second or third step; all others are in line.
            assert_eq!((orders, length, outcome), (3, 7, Outcome::Ended));
            let ran = ran(TWO_RELAYS, &sheet, &[1, 1, 1], 9);
            let given = u8::from(second.is_some());
            let values = [first.unwrap_or(0), i32::from(given), second.unwrap_or(0)];
            assert_eq!(ran.numbers[..3], values);
            assert_eq!(ran.output_marks[..3], [u8::from(first.is_some()), 1, given]);
        }
    }
}
