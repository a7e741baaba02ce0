//! Operators: each on edge values and on random ones.

mod common;

use common::Random;
use leaf_tests::NOTHING;
use reference::program::Program;
use reference::table::rows_of_numbers;
use reference::values::value;

const PAIRS: usize = 40_000;
const UNTOUCHED: i32 = 12_345;

/// A table that assigns one operator's value on two variables; the operator is in row 4.
fn program(kind: i32, operator: i32) -> Program {
    let second = if kind == 13 { 6 } else { 0 };
    let mut rows = vec![
        [1, 1, 0, 0],
        [1, 1, 0, 0],
        [22, 0, 3, 4],
        [10, 0, 0, 0],
        [kind, operator, 5, second],
        [11, 0, if kind == 13 { 7 } else { 6 }, 0],
    ];
    if kind == 13 {
        rows.extend([[11, 1, 8, 0], [10, 0, 0, 0]]);
    }
    rows.push([10, 0, 0, 0]);
    let rows = rows_of_numbers(&rows.concat()).expect("whole rows");
    Program::check(rows).expect("an accepted table")
}

/// The separate program's value on two numbers, as a leaf tells it: the answer, and what is left.
fn expected(program: &Program, x: i32, y: i32) -> (u32, i32) {
    match value(program, &[Some(x), Some(y)], 4) {
        Ok(number) => (0, number),
        Err(reason) => (u32::from(reason.number()), UNTOUCHED),
    }
}

#[test]
fn dyadic_operators_agree() {
    let mut random = Random(3);
    let mut answers = [0; 5];
    for operator in 0..16u32 {
        let program = program(13, operator as i32);
        for _ in 0..PAIRS {
            let (x, y) = (random.whole(), random.whole());
            let mut out = [UNTOUCHED];
            let answer = leaf_tests::dyadic(operator, x, y, &mut out);
            let told = (answer, out[0]);
            assert_eq!(told, expected(&program, x, y), "{operator}: {x}, {y}");
            answers[answer as usize] += 1;
        }
    }
    // A value, or reason 3 or 4; reasons 1 and 2 are those of cells and subscripts.
    assert!(answers[0] > 400_000 && answers[3] > 10_000 && answers[4] > 1_000);
    assert_eq!(answers[1] + answers[2], 0);
}

#[test]
fn monadic_operators_agree() {
    let mut random = Random(4);
    for operator in 0..2u32 {
        let program = program(12, operator as i32);
        for _ in 0..2 * PAIRS {
            let x = random.whole();
            let mut out = [UNTOUCHED];
            let answer = leaf_tests::monadic(operator, x, &mut out);
            let told = (answer, out[0]);
            assert_eq!(told, expected(&program, x, 0), "{operator}: {x}");
        }
    }
    let mut out = [UNTOUCHED];
    assert_eq!(leaf_tests::monadic(0, i32::MIN, &mut out), 3);
    assert_eq!(out, [UNTOUCHED]);
}

#[test]
fn other_operators_give_nothing() {
    let mut random = Random(5);
    for _ in 0..PAIRS {
        let operator = random.next() as u32 >> random.below(32);
        let (x, y) = (random.whole(), random.whole());
        let mut out = [UNTOUCHED];
        if operator >= 16 {
            assert_eq!(leaf_tests::dyadic(operator, x, y, &mut out), NOTHING);
        }
        if operator >= 2 {
            assert_eq!(leaf_tests::monadic(operator, x, &mut out), NOTHING);
        }
        assert_eq!(out, [UNTOUCHED]);
    }
}

#[test]
fn a_value_without_room_is_left_out() {
    assert_eq!(leaf_tests::dyadic(0, 1, 2, &mut []), 0);
    assert_eq!(leaf_tests::dyadic(3, 1, 0, &mut []), 4);
    let mut out = [7, 8];
    assert_eq!(leaf_tests::dyadic(0, 1, 2, &mut out), 0);
    assert_eq!(out, [3, 8]);
}
