//! Times of the proved code beside those of the separate program, on this machine.
//!
//! `cargo run --offline --release -p bench` prints one table, `bench pairs` its lines about the count of
//! pairs compared (request 03), `bench texts` those about the reading of the largest texts (request 02),
//! `bench largest` its last lines: the largest sheets. The other words are
//! for counts of instructions (`rust/bench/instructions`): `bench once SHEET SIDE BUDGET` makes one
//! call on a sheet that `bench sheets` lists, `bench grown PART NUMBER SIDE BUDGET` one on a sheet with
//! so many of a part that `bench growth` lists, and `bench calls NUMBER SIDE` so many on a table of one
//! row. SIDE is proved or separate.

mod growth;
mod sheets;
mod tree;

use occam_table::{calls, Buffers};
use reference::{
    answer_bytes, check_bytes, check_bytes_counted, read_text, Answer, BUFFER_LENGTHS,
};
use sheets::Sheet;
use std::hint::black_box;
use std::time::Instant;

const BUDGET: u32 = 65_536;
/// Rounds, in which the two programs take turns.
const ROUNDS: usize = 21;
/// Rounds of the largest sheets.
const LARGE_ROUNDS: usize = 5;
/// Checks in a round.
const CHECKS: u32 = 20;

/// The headings of the columns, in two lines.
const HEADINGS: [&str; 2] = [
    "                                                     proved             separate          ratio      net ns a step",
    "sheet                          rows  bytes  steps    least   median     least   median   least median   proved separate",
];

/// One of the two programs.
#[derive(Clone, Copy, PartialEq, Eq)]
enum Side {
    Proved,
    Separate,
}

fn main() {
    let words: Vec<String> = std::env::args().skip(1).collect();
    let words: Vec<&str> = words.iter().map(String::as_str).collect();
    match words[..] {
        [] => print_times(),
        ["pairs"] => {
            print_headings();
            print_pairs();
        }
        ["texts"] => {
            print_headings();
            print_texts();
        }
        ["largest"] => print_largest(),
        ["sheets"] => print_sheets(),
        ["growth"] => print_growth(),
        ["once", sheet, side, budget] => {
            call(&sheets::runs()[number(sheet)], side, number(budget), 1);
        }
        ["grown", part, count, side, budget] => {
            let sheet = growth::parts()[number(part)].sheet;
            let steps = call(&sheet(number(count) as i32), side, number(budget), 1);
            assert_eq!(steps, number(budget) as u64, "the loop never ends");
        }
        ["calls", count, side] => {
            call(&growth::smallest(), side, 1, number(count));
        }
        _ => {
            eprintln!(
                "usage: bench | bench pairs | bench texts | bench largest | bench sheets | bench growth | bench once SHEET SIDE BUDGET | \
                 bench grown PART NUMBER SIDE BUDGET | bench calls NUMBER SIDE"
            );
            std::process::exit(2);
        }
    }
}

/// A whole number of the command line.
fn number(word: &str) -> usize {
    word.parse().expect("a whole number")
}

/// Runs a sheet; tells the steps.
fn run(side: Side, sheet: &Sheet, budget: u32, buffers: &mut Buffers) -> u64 {
    let (table, readings) = (black_box(&sheet.table), black_box(&sheet.readings));
    match side {
        Side::Proved => {
            let packed = calls::run_table(table, readings, &[], budget, buffers.lend());
            assert_eq!(packed & 255, 0, "{} is refused", sheet.name);
            packed >> 16 & 0xFF_FFFF
        }
        Side::Separate => {
            let budget = u64::from(budget);
            match answer_bytes(table, readings, &[], budget, BUFFER_LENGTHS) {
                Answer::Ran(ran) => black_box(ran).steps,
                Answer::Refused(refusal) => panic!("{}: {refusal}", sheet.name),
            }
        }
    }
}

/// Reads and checks a table.
fn check(side: Side, sheet: &Sheet) {
    let table = black_box(&sheet.table);
    let accepted = match side {
        Side::Proved => calls::check_table(table) == 0,
        Side::Separate => check_bytes(table).is_ok(),
    };
    assert!(accepted, "{} is refused", sheet.name);
}

/// Reads and checks a table; tells how many pairs of components were compared.
fn check_counted(side: Side, sheet: &Sheet) -> usize {
    let table = black_box(&sheet.table);
    match side {
        Side::Proved => occam_table::check_table_counted(table).pairs as usize,
        Side::Separate => check_bytes_counted(table).pairs,
    }
}

/// Reads a text; tells the count of rows, or 0 if it is refused.
fn read(side: Side, text: &[u8], rows: &mut [i32]) -> usize {
    let text = black_box(text);
    match side {
        Side::Proved => match calls::read_text(text, rows) {
            packed if packed as u8 == 0 => (packed >> 16) as usize,
            _ => 0,
        },
        Side::Separate => black_box(read_text(text)).map_or(0, |rows| rows.len()),
    }
}

/// The least and the middle of some times, in microseconds.
struct Times {
    least: f64,
    median: f64,
}

/// The times of a call by both programs, which take turns for so many rounds.
fn times(mut call: impl FnMut(Side), calls: u32, turns: usize) -> [Times; 2] {
    let mut rounds = [Vec::new(), Vec::new()];
    for _ in 0..turns {
        for (side, times) in [Side::Proved, Side::Separate].into_iter().zip(&mut rounds) {
            let start = Instant::now();
            (0..calls).for_each(|_| call(side));
            times.push(start.elapsed().as_secs_f64() * 1e6 / f64::from(calls));
        }
    }
    rounds.map(|mut times| {
        times.sort_by(f64::total_cmp);
        Times {
            least: times[0],
            median: times[turns / 2],
        }
    })
}

/// Prints one table of all times.
fn print_times() {
    print_headings();
    for sheet in sheets::tables() {
        let checked = times(|side| check(side, &sheet), CHECKS, ROUNDS);
        println!("{}", line(&sheet, 0, &checked));
    }
    print_pairs();
    print_texts();
    for sheet in sheets::runs() {
        print_runs(&sheet, ROUNDS);
    }
    for sheet in growth::largest() {
        print_runs(&sheet, LARGE_ROUNDS);
    }
}

/// Prints the times of checks with the count of pairs compared, which stands in the column of steps.
fn print_pairs() {
    for sheet in sheets::pairs() {
        let pairs = check_counted(Side::Separate, &sheet);
        let counted = |side| assert_eq!(check_counted(side, &sheet), pairs);
        let checked = times(counted, CHECKS, ROUNDS);
        println!("{}", line(&sheet, pairs as u64, &checked));
    }
}

/// Prints the times of reading the largest texts; the column of rows has those of the table, 0 if
/// the text is refused.
fn print_texts() {
    let mut rows = vec![0; 4 * occam_table::ROWS];
    for (name, text) in sheets::texts() {
        let count = read(Side::Separate, text.as_bytes(), &mut rows);
        let reading = |side| assert_eq!(read(side, text.as_bytes(), &mut rows), count);
        let taken = times(reading, CHECKS, ROUNDS);
        println!(
            "{}",
            columns(&format!("read: {name}"), count, text.len(), 0, &taken)
        );
    }
}

/// Prints the times of the largest sheets.
fn print_largest() {
    print_headings();
    for sheet in growth::largest() {
        print_runs(&sheet, LARGE_ROUNDS);
    }
}

/// Says what the columns are.
fn print_headings() {
    println!("Microseconds a call, least and median of {ROUNDS} rounds ({LARGE_ROUNDS} of the largest sheets) in");
    println!(
        "which the programs take turns. Ratio: proved / separate. Net: the least time, less that"
    );
    println!("of a call with budget 0. Pairs: a check with the count of pairs, which stands for the steps.");
    println!();
    println!("{}", HEADINGS.join("\n"));
}

/// Prints the times of a sheet's runs.
fn print_runs(sheet: &Sheet, turns: usize) {
    let mut buffers = Buffers::default();
    let steps = run(Side::Proved, sheet, BUDGET, &mut buffers);
    assert_eq!(steps, run(Side::Separate, sheet, BUDGET, &mut buffers));
    let whole = times(
        |side| assert_eq!(run(side, sheet, BUDGET, &mut buffers), steps),
        1,
        turns,
    );
    let empty = times(
        |side| assert_eq!(run(side, sheet, 0, &mut buffers), 0),
        CHECKS,
        turns,
    );
    let net = |side: usize| (whole[side].least - empty[side].least) * 1e3 / steps as f64;
    println!(
        "{} {:8.1} {:8.1}",
        line(sheet, steps, &whole),
        net(0),
        net(1)
    );
}

/// One line of the table: a sheet, its steps, times and ratios.
fn line(sheet: &Sheet, steps: u64, times: &[Times; 2]) -> String {
    let rows = sheet.table.iter().filter(|&&byte| byte == b'\n').count() - 1;
    columns(sheet.name, rows, sheet.table.len(), steps, times)
}

/// The columns of one line.
fn columns(
    name: &str,
    rows: usize,
    bytes: usize,
    steps: u64,
    [proved, separate]: &[Times; 2],
) -> String {
    format!(
        "{name:30} {rows:4} {bytes:6} {steps:6} {:8.1} {:8.1}  {:8.1} {:8.1}  {:6.2} {:6.2}",
        proved.least,
        proved.median,
        separate.least,
        separate.median,
        proved.least / separate.least,
        proved.median / separate.median
    )
}

/// Prints each sheet's number, steps and name.
fn print_sheets() {
    let mut buffers = Buffers::default();
    for (number, sheet) in sheets::runs().iter().enumerate() {
        let steps = run(Side::Separate, sheet, BUDGET, &mut buffers);
        println!("{number} {steps} {}", sheet.name);
    }
}

/// Prints each part's number, how many of it the two sheets have, their steps and its name.
fn print_growth() {
    for (number, part) in growth::parts().iter().enumerate() {
        let [few, many] = part.numbers;
        println!("{number} {few} {many} {} {}", part.steps, part.name);
    }
}

/// Runs a sheet with this budget so many times; tells the steps of the last run.
fn call(sheet: &Sheet, side: &str, budget: usize, calls: usize) -> u64 {
    let side = match side {
        "proved" => Side::Proved,
        _ => Side::Separate,
    };
    let mut buffers = Buffers::default();
    let steps = (0..calls).map(|_| run(side, sheet, budget as u32, &mut buffers));
    steps.last().unwrap_or(0)
}
