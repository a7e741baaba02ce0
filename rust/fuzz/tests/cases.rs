//! The stored cases: through the fuzz target's comparison, as tables and as texts, and what is
//! stored of them through the binding.

mod stored;

use fuzz::{compare, compare_text, Given};
use occam_table::{calls, check_rows_counted, check_table_counted, read_text};
use occam_table::{Checked, Machine, Refusal};
use reference::printing::split_input;
use std::fs;
use stored::{cases, output, words};

#[test]
fn stored_cases_agree() {
    let mut machine = Machine::new();
    let mut count = 0;
    for path in cases() {
        let input = fs::read(&path).expect("bytes");
        let (table, sheet) = split_input(&input);
        for choices in [vec![], vec![1; 300], vec![65_535, 3, 2, 1]] {
            let given = Given::new(table, sheet, choices, 65_536);
            for compare in [compare, compare_text] {
                if let Err(difference) = compare(&given, &mut machine) {
                    panic!("{}: {difference}", path.display());
                }
            }
        }
        count += 1;
    }
    assert!(count > 400, "{count} cases");
}

/// The verdict and the count of the binding on a table, a text, or rows lent as numbers.
fn checked(table: &[u8], words: &[String]) -> Checked {
    let asked = |flag: &str| words.iter().any(|word| word == flag);
    if asked("--text") {
        return check_rows_counted(read_text(table).expect("read").as_flattened());
    }
    if !asked("--numbers") {
        return check_table_counted(table);
    }
    let text = std::str::from_utf8(table).expect("text");
    let pieces = text.split([',', '\n']).filter(|piece| !piece.is_empty());
    let numbers: Vec<i32> = pieces
        .map(|piece| piece.parse().expect("a number"))
        .collect();
    check_rows_counted(&numbers)
}

#[test]
fn stored_counts_are_those_of_the_binding() {
    let mut count = 0;
    for path in cases() {
        let words = words(&path);
        let asked = |flag: &str| words.iter().any(|word| word == flag);
        if asked("--pairs") {
            let input = fs::read(&path).expect("bytes");
            let checked = checked(split_input(&input).0, &words);
            assert_eq!(format!("{checked}\n"), output(&path), "{}", path.display());
            count += 1;
        }
    }
    assert!(count > 100, "{count} cases");
}

/// What the library reads of a text, with a list of this length for the rows: the table's bytes, or
/// the refusal.
fn reading(text: &[u8], room: usize) -> String {
    let mut rows = vec![0; room];
    let packed = calls::read_text(text, &mut rows);
    if packed as u8 != 0 {
        let (number, place) = (packed as u8, (packed >> 16) as u32);
        return format!("{}\n", Refusal { number, place });
    }
    let rows = rows.chunks_exact(4).take((packed >> 16) as usize);
    let line = |row: &[i32]| format!("{},{},{},{}\n", row[0], row[1], row[2], row[3]);
    let lines = rows.map(line);
    std::iter::once("kind,a,b,c\n".to_string())
        .chain(lines)
        .collect()
}

#[test]
fn stored_readings_are_those_of_the_library() {
    let mut count = 0;
    for path in cases() {
        let words = words(&path);
        if words.iter().any(|word| word == "--read") {
            let room = words.iter().skip_while(|word| *word != "--room").nth(1);
            let room = room.map_or(4_096, |room| room.parse().expect("a number"));
            let input = fs::read(&path).expect("bytes");
            let reading = reading(split_input(&input).0, room);
            assert_eq!(reading, output(&path), "{}", path.display());
            count += 1;
        }
    }
    assert!(count > 200, "{count} cases");
}
