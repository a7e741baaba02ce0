//! Two orders and their common state (request 14): the checks of the request's note on tables made
//! by hand, with lengths, lists and states worked out by hand. Checks 7 and 11 are not here: they need
//! replicators, which are not there yet. Check 12 is in `generated_joins.rs`.

mod common;
use common::joins::{accepted, joined, lists_begin};
use common::table;
use reference::join::{follow, join, one_begins_the_other, Failure, NotReady, Order};
use reference::program::Program;
use reference::sheet::Readings;
use reference::state::State;
use reference::steps::{ready_steps, take_step, StepName};
use std::collections::HashSet;

/// SEQ(n := 0; WHILE 1 SEQ(b ! n; n := n + 1)).
const LOOP: &str = "\
    2,1,2,256 1,1,0,0 30,3,0,0 40,4,7,0 22,1,5,6 10,0,0,0 10,0,0,0 40,8,-1,0 33,9,10,0 10,1,0,0 \
    30,11,0,0 40,12,16,0 24,0,13,14 10,0,0,0 11,1,15,0 10,0,0,0 40,17,-1,0 22,1,18,19 10,0,0,0 \
    13,0,20,22 11,1,21,0 10,0,0,0 10,1,0,0";

/// PAR of two such loops, on channels b and c.
const TWO_LOOPS: &str = "\
    2,1,2,256 2,1,2,256 1,1,0,0 1,1,0,0 31,5,0,0 40,6,27,0 30,7,0,0 40,8,11,0 22,2,9,10 10,0,0,0 \
    10,0,0,0 40,12,-1,0 33,13,14,0 10,1,0,0 30,15,0,0 40,16,20,0 24,0,17,18 10,0,0,0 11,2,19,0 \
    10,0,0,0 40,21,-1,0 22,2,22,23 10,0,0,0 13,0,24,26 11,2,25,0 10,0,0,0 10,1,0,0 40,28,-1,0 \
    30,29,0,0 40,30,33,0 22,3,31,32 10,0,0,0 10,0,0,0 40,34,-1,0 33,35,36,0 10,1,0,0 30,37,0,0 \
    40,38,42,0 24,1,39,40 10,0,0,0 11,3,41,0 10,0,0,0 40,43,-1,0 22,3,44,45 10,0,0,0 13,0,46,48 \
    11,3,47,0 10,0,0,0 10,1,0,0";

/// PAR(SEQ(x := 1; b ! x), SEQ(y := 2; c ! y)).
const TWO_THAT_END: &str = "\
    2,1,2,2 2,1,2,2 1,1,0,0 1,1,0,0 31,5,0,0 40,6,16,0 30,7,0,0 40,8,11,0 22,2,9,10 10,0,0,0 \
    10,1,0,0 40,12,-1,0 24,0,13,14 10,0,0,0 11,2,15,0 10,0,0,0 40,17,-1,0 30,18,0,0 40,19,22,0 \
    22,3,20,21 10,0,0,0 10,2,0,0 40,23,-1,0 24,1,24,25 10,0,0,0 11,3,26,0 10,0,0,0";

/// PAR of WHILE 1 { INT x: SEQ(b ! x; x := 5) } and SEQ(m := 1; WHILE 1 { INT y: SEQ(IF(m: y := 6,
/// 1: SKIP); c ! y; m := 1 - m) }).
const BLOCKS: &str = "\
    2,1,2,256 2,1,2,256 1,1,0,0 1,1,0,0 1,1,0,0 31,6,0,0 40,7,20,0 33,8,9,0 10,1,0,0 35,2,10,0 \
    30,11,0,0 40,12,16,0 24,0,13,14 10,0,0,0 11,2,15,0 10,0,0,0 40,17,-1,0 22,2,18,19 10,0,0,0 \
    10,5,0,0 40,21,-1,0 30,22,0,0 40,23,26,0 22,3,24,25 10,0,0,0 10,1,0,0 40,27,-1,0 33,28,29,0 \
    10,1,0,0 35,4,30,0 30,31,0,0 40,32,42,0 32,33,0,0 41,34,39,37 22,4,35,36 10,0,0,0 10,6,0,0 \
    11,3,38,0 10,0,0,0 41,40,-1,41 21,0,0,0 10,1,0,0 40,43,47,0 24,1,44,45 10,0,0,0 11,4,46,0 \
    10,0,0,0 40,48,-1,0 22,3,49,50 10,0,0,0 13,1,51,52 10,1,0,0 11,3,53,0 10,0,0,0";

/// PAR(WHILE 1 SEQ(h ? x; a ! x), WHILE 1 SEQ(a ? y; b ! y), the loop on channel c).
const RELAY: &str = "\
    2,1,1,0 2,1,0,0 2,1,2,8 2,1,2,256 1,1,0,0 1,1,0,0 1,1,0,0 31,8,0,0 40,9,22,0 33,10,11,0 10,1,0,0 \
    30,12,0,0 40,13,17,0 23,0,14,15 10,0,0,0 11,4,16,0 10,0,0,0 40,18,-1,0 24,1,19,20 10,0,0,0 \
    11,4,21,0 10,0,0,0 40,23,36,0 33,24,25,0 10,1,0,0 30,26,0,0 40,27,31,0 23,1,28,29 10,0,0,0 \
    11,5,30,0 10,0,0,0 40,32,-1,0 24,2,33,34 10,0,0,0 11,5,35,0 10,0,0,0 40,37,-1,0 30,38,0,0 \
    40,39,42,0 22,6,40,41 10,0,0,0 10,0,0,0 40,43,-1,0 33,44,45,0 10,1,0,0 30,46,0,0 40,47,51,0 \
    24,3,48,49 10,0,0,0 11,6,50,0 10,0,0,0 40,52,-1,0 22,6,53,54 10,0,0,0 13,0,55,57 11,6,56,0 \
    10,0,0,0 10,1,0,0";

/// PAR(SEQ(b ! 1; x := 1 / 0; b ! 2), the loop on channel c).
const STOP: &str = "\
    2,1,2,8 2,1,2,256 1,1,0,0 1,1,0,0 31,5,0,0 40,6,21,0 30,7,0,0 40,8,11,0 24,0,9,10 10,0,0,0 \
    10,1,0,0 40,12,17,0 22,2,13,14 10,0,0,0 13,3,15,16 10,1,0,0 10,0,0,0 40,18,-1,0 24,0,19,20 \
    10,0,0,0 10,2,0,0 40,22,-1,0 30,23,0,0 40,24,27,0 22,3,25,26 10,0,0,0 10,0,0,0 40,28,-1,0 \
    33,29,30,0 10,1,0,0 30,31,0,0 40,32,36,0 24,1,33,34 10,0,0,0 11,3,35,0 10,0,0,0 40,37,-1,0 \
    22,3,38,39 10,0,0,0 13,0,40,42 11,3,41,0 10,0,0,0 10,1,0,0";

/// ALT(1 & SKIP: b ! 1, 1 & SKIP: b ! 2).
const ALT: &str = "\
    2,1,2,2 34,2,0,0 42,3,9,6 24,0,4,5 10,0,0,0 10,1,0,0 43,7,8,0 10,1,0,0 21,0,0,0 42,10,-1,13 \
    24,0,11,12 10,0,0,0 10,2,0,0 43,14,15,0 10,1,0,0 21,0,0,0";

/// The program of these rows and the readings of a sheet.
fn sheet(rows: &str, sheet: &str) -> (Program, Readings) {
    accepted(&table(rows), sheet.as_bytes()).expect("accepted")
}

/// The order that takes the steps of these rows.
fn order(program: &Program, readings: &Readings, rows: &[usize]) -> Order {
    let mut end = State::start(program);
    let mut steps = Vec::new();
    let mut ready = Vec::new();
    for &row in rows {
        ready_steps(program, readings, &end, &mut ready);
        let step = ready.iter().find(|step| step.row() == row);
        let step = *step.expect("it is ready");
        take_step(program, readings, &mut end, step);
        steps.push(step.name());
    }
    Order { steps, end }
}

/// A first step and then three in turn, so many together.
fn turns(first: usize, three: [usize; 3], count: usize) -> Vec<usize> {
    let turns = three.into_iter().cycle();
    std::iter::once(first).chain(turns).take(count).collect()
}

/// So many steps of `LOOP`: n := 0; then test, write, count.
fn steps_of_loop(count: usize) -> Vec<usize> {
    turns(4, [8, 12, 17], count)
}

/// So many steps of the first and then of the second member of `TWO_LOOPS`.
fn steps_of_two(first: usize, second: usize) -> Vec<usize> {
    let second = turns(30, [34, 38, 43], second);
    [turns(8, [12, 16, 21], first), second].concat()
}

/// The rows of steps.
fn rows(steps: &[StepName]) -> Vec<usize> {
    steps.iter().map(|step| step.row).collect()
}

/// The rows that are not idle, with their states.
fn not_idle(state: &State) -> Vec<(usize, u8)> {
    let rows = state.rows.iter().copied().enumerate();
    rows.filter(|&(_, state)| state != 0).collect()
}

/// A list of values.
fn values(list: &[i32]) -> Vec<Option<i32>> {
    list.iter().copied().map(Some).collect()
}

#[test]
fn check_1_a_loop_after_6_and_9_steps() {
    let (program, readings) = sheet(LOOP, "\n");
    let six = order(&program, &readings, &steps_of_loop(6));
    let nine = order(&program, &readings, &steps_of_loop(9));
    assert_eq!(six.end.lists, [values(&[0, 1])]);
    let common = joined(&program, &readings, &six, &nine);
    assert_eq!(rows(&common.onward), [17, 8, 12]);
    assert_eq!(rows(&common.toward), []);
    assert_eq!(common.state.cells, [Some(2)]);
    assert_eq!(common.state.lists, [values(&[0, 1, 2])]);
    let running = [(2, 1), (4, 2), (8, 1), (10, 1), (12, 2), (17, 1)];
    assert_eq!(not_idle(&common.state), running);
    let reversed = joined(&program, &readings, &nine, &six);
    assert_eq!(
        (rows(&reversed.onward), rows(&reversed.toward)),
        (vec![], vec![17, 8, 12])
    );
}

#[test]
fn check_2_two_loops_crosswise() {
    let (program, readings) = sheet(TWO_LOOPS, "\n");
    let first = order(&program, &readings, &steps_of_two(9, 3));
    let second = order(&program, &readings, &steps_of_two(3, 6));
    assert_eq!(first.end.lists, [values(&[0, 1, 2]), values(&[0])]);
    assert_eq!(second.end.lists, [values(&[0]), values(&[0, 1])]);
    let common = joined(&program, &readings, &first, &second);
    assert_eq!(rows(&common.onward), [43, 34, 38]);
    assert_eq!(rows(&common.toward), [21, 12, 16, 21, 12, 16]);
    assert_eq!(common.state.cells, [Some(2), Some(1)]);
    let lists = [values(&[0, 1, 2]), values(&[0, 1])];
    assert_eq!(common.state.lists, lists);
}

#[test]
fn check_3_two_orders_at_rest() {
    let (program, readings) = sheet(TWO_THAT_END, "\n");
    let first = order(&program, &readings, &[8, 12, 19, 23]);
    let second = order(&program, &readings, &[19, 8, 23, 12]);
    let common = joined(&program, &readings, &first, &second);
    assert!(common.onward.is_empty() && common.toward.is_empty());
    assert_eq!(common.state, first.end);
    assert_eq!(common.state.lists, [values(&[1]), values(&[2])]);
    let ended = [(4, 2), (6, 2), (8, 2), (12, 2), (17, 2), (19, 2), (23, 2)];
    assert_eq!(not_idle(&common.state), ended);
    let begun = order(&program, &readings, &[19]);
    let common = joined(&program, &readings, &begun, &first);
    assert_eq!(rows(&common.onward), [8, 12, 23]);
    assert_eq!((common.toward.len(), common.state), (0, first.end));
}

#[test]
fn check_4_the_order_of_no_steps() {
    let (program, readings) = sheet(TWO_LOOPS, "\n");
    let none = order(&program, &readings, &[]);
    let other = order(&program, &readings, &steps_of_two(7, 4));
    let common = joined(&program, &readings, &none, &other);
    assert_eq!(common.onward, other.steps);
    assert_eq!((common.toward.len(), common.state), (0, other.end));
}

#[test]
fn check_5_equal_orders_and_equal_steps() {
    let (program, readings) = sheet(TWO_LOOPS, "\n");
    let one = order(&program, &readings, &steps_of_two(6, 5));
    let mixed = [8, 30, 12, 34, 16, 38, 21, 43, 12, 34, 16];
    let other = order(&program, &readings, &mixed);
    for other in [&one, &other] {
        let common = joined(&program, &readings, &one, other);
        assert_eq!((common.onward.len(), common.toward.len()), (0, 0));
        assert_eq!(common.state, one.end);
    }
}

/// So many steps of each member of `BLOCKS`: test, write, assignment; and m := 1, then a pass that
/// sets y, then one that does not.
fn steps_of_blocks(first: usize, second: usize) -> Vec<usize> {
    let passes = [23, 27, 32, 34, 43, 48, 27, 32, 43, 48];
    let first = [7, 12, 17].into_iter().cycle().take(first);
    first.chain(passes.into_iter().take(second)).collect()
}

#[test]
fn check_6_a_block_in_each_loop() {
    let (program, readings) = sheet(BLOCKS, "\n");
    let first = order(&program, &readings, &steps_of_blocks(5, 3));
    let second = order(&program, &readings, &steps_of_blocks(3, 10));
    assert_eq!(first.end.lists, [vec![None, None], vec![]]);
    assert_eq!(second.end.lists, [vec![None], vec![Some(6), None]]);
    assert_eq!(second.end.cells, [Some(5), Some(1), None]);
    let common = joined(&program, &readings, &first, &second);
    assert_eq!(rows(&common.onward), [34, 43, 48, 27, 32, 43, 48]);
    assert_eq!(rows(&common.toward), [7, 12]);
    assert_eq!(common.state.cells, [None, Some(1), None]);
    let lists = [vec![None, None], vec![Some(6), None]];
    assert_eq!(common.state.lists, lists);
}

#[test]
fn check_8_an_absent_reading_relayed() {
    let (program, readings) = sheet(RELAY, "0\n5\n\n7\n");
    let desk = [9, 13, 23, 27, 9, 13, 32, 23, 27, 9, 13, 32];
    let first = order(&program, &readings, &desk);
    let ahead = [39, 43, 47, 52, 43, 47, 52, 9, 13, 23, 27, 32];
    let second = order(&program, &readings, &ahead);
    assert_eq!(first.end.lists, [vec![Some(5), None], vec![]]);
    assert_eq!(second.end.lists, [values(&[5]), values(&[0, 1])]);
    let common = joined(&program, &readings, &first, &second);
    assert_eq!(rows(&common.onward), [39, 43, 47, 52, 43, 47, 52]);
    assert_eq!(rows(&common.toward), [9, 13, 23, 27, 9, 13, 32]);
    let communication = StepName {
        row: 27,
        output: Some(18),
    };
    assert_eq!(common.toward[3], communication);
    assert_eq!(common.state.cells, [Some(7), None, Some(2)]);
    assert_eq!(common.state.places, [3]);
    let lists = [vec![Some(5), None], values(&[0, 1])];
    assert_eq!(common.state.lists, lists);
}

#[test]
fn check_9_a_stop_in_one_member() {
    let (program, readings) = sheet(STOP, "\n");
    let of_loop = |count| turns(24, [28, 32, 37], count);
    let first = order(&program, &readings, &[vec![8, 12], of_loop(6)].concat());
    let second = order(&program, &readings, &of_loop(9));
    assert_eq!(first.end.lists, [values(&[1]), values(&[0, 1])]);
    assert_eq!(second.end.lists, [vec![], values(&[0, 1, 2])]);
    let common = joined(&program, &readings, &first, &second);
    assert_eq!(rows(&common.onward), [37, 28, 32]);
    assert_eq!(rows(&common.toward), [8, 12]);
    assert_eq!(common.state.cells, [None, Some(2)]);
    assert_eq!(common.state.rows[12], 14);
    assert_eq!(common.state.lists, [values(&[1]), values(&[0, 1, 2])]);
}

/// All states to which orders come from this one, itself included.
fn all_later(program: &Program, readings: &Readings, state: &State) -> HashSet<State> {
    let mut found = HashSet::new();
    let mut left = vec![state.clone()];
    let mut ready = Vec::new();
    while let Some(state) = left.pop() {
        ready_steps(program, readings, &state, &mut ready);
        for step in &ready {
            let mut next = state.clone();
            take_step(program, readings, &mut next, *step);
            left.push(next);
        }
        found.insert(state);
    }
    found
}

#[test]
fn check_10_an_alt_is_outside() {
    let (program, readings) = sheet(ALT, "\n");
    assert!(program.has_alt());
    let first = order(&program, &readings, &[2]);
    let second = order(&program, &readings, &[9]);
    let [one, other] = [&first, &second].map(|order| all_later(&program, &readings, &order.end));
    assert_eq!((one.len(), other.len()), (2, 2));
    assert!(one.is_disjoint(&other));
    let not_ready = NotReady {
        number: 0,
        step: StepName {
            row: 9,
            output: None,
        },
    };
    let failure = join(&program, &readings, &first, &second).err();
    assert_eq!(failure, Some(Failure::First(not_ready)));
    let first = order(&program, &readings, &[2, 3]);
    let second = order(&program, &readings, &[9, 10]);
    assert_eq!(first.end.lists, [values(&[1])]);
    assert_eq!(second.end.lists, [values(&[2])]);
    assert!(!lists_begin(&first.end, &second.end));
}

#[test]
fn the_bounds_are_reached() {
    let (program, readings) = sheet(TWO_LOOPS, "\n");
    let first = order(&program, &readings, &steps_of_two(5, 0));
    let second = order(&program, &readings, &turns(30, [34, 38, 43], 8));
    let common = joined(&program, &readings, &first, &second);
    assert_eq!((common.onward.len(), common.toward.len()), (8, 5));
    assert!(common.onward.len() > first.steps.len());
}

#[test]
fn the_steps_of_both_are_not_repeated() {
    let (program, readings) = sheet(LOOP, "\n");
    let six = order(&program, &readings, &steps_of_loop(6));
    let nine = order(&program, &readings, &steps_of_loop(9));
    let repeated = follow(&program, &readings, six.end, &nine.steps);
    assert_eq!(repeated.err().map(|failure| failure.number), Some(0));
}

#[test]
fn lists_are_not_equal_and_not_compared_across_channels() {
    let (program, readings) = sheet(BLOCKS, "\n");
    let first = order(&program, &readings, &steps_of_blocks(5, 3));
    let second = order(&program, &readings, &steps_of_blocks(3, 10));
    let [one, other] = [&first.end.lists, &second.end.lists];
    assert!(lists_begin(&first.end, &second.end));
    assert!(one[0] != other[0] && one[1] != other[1]);
    assert!(!one_begins_the_other(&one[0], &other[1]));
}

#[test]
fn one_list_begins_the_other() {
    for (one, other, begins) in [
        (vec![], vec![], true),
        (vec![], vec![Some(1)], true),
        (vec![Some(1)], vec![Some(1), None], true),
        (vec![Some(1), None], vec![Some(1)], true),
        (vec![Some(1), None], vec![Some(1), Some(0)], false),
        (vec![None], vec![Some(0)], false),
        (vec![None, Some(2)], vec![Some(2)], false),
        (vec![Some(1), Some(2)], vec![Some(2), Some(1)], false),
    ] {
        assert_eq!(one_begins_the_other(&one, &other), begins);
        assert_eq!(one_begins_the_other(&other, &one), begins);
    }
}

#[test]
fn a_wrong_order_is_told() {
    let (program, readings) = sheet(LOOP, "\n");
    let [row_4, row_8] = [4, 8].map(|row| StepName { row, output: None });
    let good = Order::of(&program, &readings, &[row_4, row_8]).expect("an order");
    assert_eq!(good.end.rows[8], 1);
    let wrong = Order::of(&program, &readings, &[row_4, row_4]);
    let not_ready = NotReady {
        number: 1,
        step: row_4,
    };
    assert_eq!(wrong.err(), Some(not_ready));
}

#[test]
fn ends_of_other_steps_are_apart() {
    let (program, readings) = sheet(LOOP, "\n");
    let six = order(&program, &readings, &steps_of_loop(6));
    let nine = order(&program, &readings, &steps_of_loop(9));
    let forged = Order {
        steps: six.steps.clone(),
        end: nine.end,
    };
    let failure = join(&program, &readings, &six, &forged).err();
    assert_eq!(failure, Some(Failure::Apart));
}
