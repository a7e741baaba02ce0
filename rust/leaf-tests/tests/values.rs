//! Values: every row of generated tables under random cells.

mod common;

use common::Random;
use leaf_tests::NOTHING;
use reference::generate::{generate, Aim};
use reference::kinds::{EXPRESSION, GIVEN, MONADIC};
use reference::limits::{check_limits, CELLS};
use reference::program::Program;
use reference::table::{rows_of_bytes, Row};
use reference::values::value;

const TABLES: u64 = 1_500;
const UNTOUCHED: i32 = 12_345;

/// The numbers of some rows.
fn numbers(rows: &[Row]) -> Vec<i32> {
    let four = |row: &Row| [row.kind, row.a, row.b, row.c];
    rows.iter().flat_map(four).collect()
}

/// Some cells, unset or with numbers that are often small.
fn some_cells(random: &mut Random) -> Vec<Option<i32>> {
    let unset = random.pick(&[0, 1, 5]);
    let cell = |_| match random.below(10) {
        number if number < unset => None,
        8.. => Some(random.whole()),
        _ => Some(random.below(5) as i32),
    };
    (0..CELLS).map(cell).collect()
}

/// Whether a row is GIVEN of an element.
fn is_given(row: &Row) -> bool {
    row.kind == MONADIC && row.a == GIVEN
}

/// What the leaf tells of a row: the answer, and what is left of the number lent.
fn told(rows: &[i32], cells: &[Option<i32>], row: usize) -> (u32, i32) {
    let values: Vec<i32> = cells.iter().map(|cell| cell.unwrap_or(-1)).collect();
    let marks: Vec<u8> = cells.iter().map(|cell| cell.is_some().into()).collect();
    let mut out = [UNTOUCHED];
    let answer = leaf_tests::value(rows, &values, &marks, row, &mut out);
    (answer, out[0])
}

#[test]
fn values_agree() {
    let mut random = Random(8);
    let mut answers = [0; 5];
    let mut given = [0; 2];
    for seed in 0..TABLES {
        let aim = match seed % 50 {
            0 => Aim::Shape,
            1..=25 => Aim::WithoutAlt,
            _ => Aim::Accepted,
        };
        let table = generate(seed, seed % 5 != 0, Some(aim)).parts().0;
        let Ok(program) = rows_of_bytes(&table).and_then(Program::check) else {
            continue;
        };
        let rows = numbers(&program.rows);
        for _ in 0..12 {
            let cells = some_cells(&mut random);
            for row in 0..program.rows.len() {
                if !EXPRESSION.contains(&program.rows[row].kind) {
                    continue;
                }
                let expected = match value(&program, &cells, row) {
                    Ok(number) => (0, number),
                    Err(reason) => (u32::from(reason.number()), UNTOUCHED),
                };
                let told = told(&rows, &cells, row);
                assert_eq!(told, expected, "{seed}, row {row}: {rows:?} {cells:?}");
                answers[told.0 as usize] += 1;
                if is_given(&program.rows[row]) && told.0 == 0 {
                    given[told.1 as usize] += 1;
                }
            }
        }
    }
    println!("values, and reasons 1 to 4: {answers:?}");
    assert!(answers.iter().sum::<usize>() > 100_000);
    assert!(answers.iter().all(|&count| count > 50), "{answers:?}");
    assert!(given.iter().all(|&count| count > 200), "{given:?}");
}

#[test]
fn other_rows_have_no_value() {
    let mut random = Random(9);
    let mut rows_seen = 0;
    for seed in 0..TABLES / 2 {
        let table = generate(seed, true, Some(Aim::Accepted)).parts().0;
        let rows = rows_of_bytes(&table).expect("rows");
        let flat = numbers(&rows);
        let cells = some_cells(&mut random);
        let past = [rows.len(), rows.len() + 1, 1_024, usize::MAX];
        let others = (0..rows.len()).filter(|&row| !EXPRESSION.contains(&rows[row].kind));
        for row in others.chain(past) {
            assert_eq!(told(&flat, &cells, row), (NOTHING, UNTOUCHED), "{row}");
            rows_seen += 1;
        }
    }
    assert!(rows_seen > 5_000, "{rows_seen} rows");
}

#[test]
fn tables_past_a_limit_have_no_values() {
    let mut random = Random(10);
    let mut tables = 0;
    for seed in 0..TABLES / 2 {
        let table = generate(seed, true, Some(Aim::Refusal(6))).parts().0;
        let rows = rows_of_bytes(&table).expect("rows");
        let cells = some_cells(&mut random);
        let mut flat = numbers(&rows);
        if check_limits(&rows).is_err() {
            tables += 1;
        } else {
            flat.resize(4 * 1_025, 0);
        }
        for row in 0..rows.len() {
            assert_eq!(told(&flat, &cells, row), (NOTHING, UNTOUCHED), "{row}");
        }
    }
    assert!(tables > 500, "{tables} tables");
}
