//! Blocks (request 05): what the stored cases cannot show. All orders of a table with two blocks,
//! the cells after each step, and refusal 14 against a slow search that follows the paper's words.

mod common;
use common::{assert_enough, outcome, ran, stored_inputs, Tally};
use reference::explore::{explore, Finding};
use reference::generate::{generate, Aim};
use reference::kinds::{declaration_count, rows_referred_to, ASSIGNMENT, BLOCK, ELEMENT};
use reference::printing::split_input;
use reference::table::{rows_of_bytes, Row};
use reference::{answer_bytes, check_bytes, Answer, Outcome, BUDGET_LIMIT, BUFFER_LENGTHS};

/// PAR of two loops with a block each (check 9 of the request's note).
const TWO_LOOPS: &[u8] = include_bytes!("../../../cases/q5-two-loops-0.in");

#[test]
fn check_9_random_choices_come_to_one_rest() {
    let (table, sheet) = split_input(TWO_LOOPS);
    let mut number = 1u32;
    let mut some_choice = || {
        number = number.wrapping_mul(1_664_525).wrapping_add(1_013_904_223);
        (number >> 16) as u16
    };
    for _ in 0..1_000 {
        let choices: Vec<u16> = (0..22).map(|_| some_choice()).collect();
        let answer = answer_bytes(table, sheet, &choices, BUDGET_LIMIT, BUFFER_LENGTHS);
        let Answer::Ran(ran) = answer else {
            panic!("refused");
        };
        assert_eq!((ran.outcome, ran.steps), (Outcome::Ended, 22));
        assert_eq!(ran.marks[..4], [1, 0, 1, 1]);
        assert_eq!(ran.cells[..4], [2, 0, 2, 8]);
        assert_eq!(ran.numbers[..8], [7, 0, 0, 0, 0, 8, 0, 0]);
        assert_eq!(ran.output_marks[..8], [1, 0, 0, 0, 0, 1, 0, 0]);
    }
}

#[test]
fn check_9_all_orders_agree() {
    let (table, sheet) = split_input(TWO_LOOPS);
    let program = check_bytes(table).expect("accepted");
    // Two loops of 11 steps each: 22 over 11 orders.
    let agree = Finding::Agree {
        orders: 705_432,
        length: 22,
        outcome: Outcome::Ended,
    };
    assert_eq!(explore(&program, sheet, 3_000), Ok(agree));
}

#[test]
fn cells_after_each_step_of_a_loop() {
    // WHILE 1 { INT x of two cells: SEQ(x[1] := 4; y := 9) }
    let rows = "1,2,0,0 1,1,0,0 33,3,4,0 10,1,0,0 35,0,5,0 30,6,0,0 40,8,7,0 40,11,-1,0 \
        22,0,9,10 10,1,0,0 10,4,0,0 22,1,12,13 10,0,0,0 10,9,0,0";
    for (budget, marks) in [
        (0, [0, 0, 0]),
        (1, [0, 0, 0]),
        (2, [0, 1, 0]),
        (3, [0, 1, 1]),
        (4, [0, 0, 1]),
        (5, [0, 1, 1]),
        (6, [0, 1, 1]),
        (7, [0, 0, 1]),
    ] {
        let ran = ran(rows, "\n", &[], budget);
        assert_eq!((ran.outcome, ran.steps), (Outcome::Spent, budget));
        assert_eq!(ran.marks[..3], marks, "{budget}");
        let running = u8::from(budget % 3 != 0);
        assert_eq!(ran.states[4], running, "{budget}");
    }
}

#[test]
fn a_start_takes_no_step() {
    let skip = "1,1,0,0 30,2,0,0 40,3,-1,0 35,0,4,0 21,0,0,0";
    assert_eq!(outcome(skip), ("ended", 0));
    let stop = "1,1,0,0 30,2,0,0 40,3,-1,0 35,0,4,0 20,0,0,0";
    assert_eq!(outcome(stop), ("stuck", 0));
    let looped = "1,1,0,0 33,2,3,0 10,1,0,0 35,0,4,0 21,0,0,0";
    assert_eq!(outcome(looped), ("spent", 65_536));
}

#[test]
fn blocks_as_deep_as_there_are_cells() {
    let mut rows = "1,1,0,0 ".repeat(256) + "33,257,258,0 10,1,0,0";
    for variable in 0..256 {
        rows += &format!(" 35,{variable},{},0", 259 + variable);
    }
    rows += " 22,200,515,516 10,0,0,0 10,1,0,0";
    let after = |budget| ran(&rows, "\n", &[], budget).marks;
    assert_eq!(after(1), [0; 256]);
    assert_eq!(after(2).iter().sum::<u8>(), 1);
    assert_eq!(after(3), [0; 256]);
}

/// All rows beneath a row.
fn beneath(rows: &[Row], row: usize) -> Vec<usize> {
    let mut found = Vec::new();
    for lower in rows_referred_to(&rows[row]) {
        found.push(lower);
        found.extend(beneath(rows, lower));
    }
    found
}

/// The sort of fault of 14 in a row: "A block as root, a second block for a name, or the name
/// outside its block".
fn fault(rows: &[Row], row: usize) -> Option<&'static str> {
    let Row { kind, a, .. } = rows[row];
    let mut blocks = (0..rows.len()).filter(|&block| rows[block].kind == BLOCK);
    let its_block = blocks.find(|&block| rows[block].a == a);
    match (kind, its_block) {
        (BLOCK, _) if row == declaration_count(rows) => Some("root"),
        (BLOCK, Some(lowest)) if lowest < row => Some("second"),
        (ELEMENT | ASSIGNMENT, Some(block)) if !beneath(rows, block).contains(&row) => {
            Some("outside")
        }
        _ => None,
    }
}

/// Compares refusal 14 of rows that 4, 5 and 6 do not refuse with the slow search; tells the fault.
fn compare(what: &str, table: &[u8]) -> Option<&'static str> {
    let refusal = check_bytes(table).err();
    if refusal.is_some_and(|refusal| refusal.number < 7) {
        return None;
    }
    let rows = rows_of_bytes(table).expect("rows");
    let faults = (0..rows.len()).filter_map(|row| Some((row, fault(&rows, row)?)));
    let lowest = faults.min();
    let found = refusal.filter(|refusal| refusal.number == 14);
    let place = found.map(|refusal| refusal.place as usize);
    assert_eq!(place, lowest.map(|(row, _)| row), "{what}");
    Some(lowest.map_or("none", |(_, sort)| sort))
}

#[test]
fn refusal_14_is_as_the_slow_search_finds_it() {
    let mut sorts = Tally::new();
    for seed in 0..1_200 {
        let aim = match seed % 3 {
            0 => Some(Aim::Accepted),
            1 => Some(Aim::Refusal(14)),
            _ => None,
        };
        let input = generate(seed, seed % 5 > 0, aim);
        let (table, _) = split_input(&input.bytes);
        if let Some(sort) = compare(&format!("seed {seed}"), table) {
            *sorts.entry(sort).or_insert(0) += 1;
        }
    }
    let least = [
        ("none", 400),
        ("root", 30),
        ("second", 30),
        ("outside", 100),
    ];
    assert_enough(&sorts, &least);
}

#[test]
fn refusal_14_of_stored_cases_is_as_the_slow_search_finds_it() {
    let mut refused = 0;
    for (file, input) in stored_inputs() {
        let (table, _) = split_input(&input);
        let sort = compare(&file, table);
        refused += usize::from(sort.is_some_and(|sort| sort != "none"));
    }
    assert!(refused >= 30, "{refused}");
}
