//! Tables and texts at the limits, deep and wide: the library answers in a thread with a stack of 1 MiB (`occam_table::STACK`, half of
//! what a thread has by default), and as the separate program does.
//!
//! `cargo test --offline --release -p fuzz --test limits -- --ignored --nocapture` finds out the least stack of each.

mod tables;

use fuzz::{compare, compare_text, Given};
use occam_table::{calls, check_rows_counted, check_table_counted};
use occam_table::{Buffers, Checked, Machine, Refusal, STACK};
use reference::generate::occam::largest::{largest_read, largest_refused, Named};
use std::process::{Command, Stdio};
use std::thread;
use tables::{
    absences_everywhere, blocks_of_all_cells, bytes, deep_alts, deep_blocks_in_a_loop,
    deep_constant, deep_expression, deep_given, deep_ifs, deep_loops, deep_pars_in_a_loop,
    deep_subscript, deep_sum, largest, nested, nested_pars, outputs_after_skips, readings, skips,
    wide_in_a_loop,
};

/// The stack of a call in KiB, for the tests; `OCCAM_STACK` asks for another one.
fn stack() -> usize {
    let asked = std::env::var("OCCAM_STACK").ok();
    asked.map_or(STACK / 1_024, |text| text.parse().expect("a whole number"))
}

/// Runs a test in a thread with a stack of so many KiB.
fn within<T: Send + 'static>(kib: usize, test: impl FnOnce() -> T + Send + 'static) -> T {
    let thread = thread::Builder::new().stack_size(kib * 1024);
    thread
        .spawn(test)
        .expect("a thread")
        .join()
        .expect("no panic")
}

/// Compares the library with the separate program, with room for the latter.
fn compare_with_room(given: Given) {
    within(65_536, move || {
        compare(&given, &mut Machine::new())
            .map(|_| ())
            .expect("equal answers")
    });
}

/// The library's answer within the stack of a call; then the comparison, with room for the separate program.
fn answered(rows: Vec<[i32; 4]>, sheet: &[u8], budget: u32) -> u64 {
    let (table, sheet) = (bytes(&rows), sheet.to_vec());
    let given = Given::new(&table, &sheet, vec![3, 1, 4, 1, 5, 9], budget);
    let packed = within(stack(), move || {
        let mut buffers = Buffers::default();
        calls::run_table(&table, &sheet, &[3, 1, 4, 1, 5, 9], budget, buffers.lend())
    });
    compare_with_room(given);
    packed & OUTCOME_AND_STEPS
}

/// The lower 40 bits of an answer: a refusal, or outcome and steps.
const OUTCOME_AND_STEPS: u64 = (1 << 40) - 1;
const ENDED: u64 = 256;
const STUCK: u64 = 2 * 256;
const BROKEN: u64 = 3 * 256;
const SPENT: u64 = 4 * 256;

#[test]
fn deep_nests_of_seq() {
    assert_eq!(answered(nested(30), b"\n", 65_536), ENDED + 65_536);
}

#[test]
fn deep_nests_of_par() {
    assert_eq!(answered(nested(31), b"\n", 65_536), ENDED + 65_536);
}

#[test]
fn deep_nests_of_if() {
    assert_eq!(answered(deep_ifs(), b"\n", 65_536), ENDED + 340 * 65_536);
}

#[test]
fn deep_nests_of_alt() {
    assert_eq!(answered(deep_alts(), b"\n", 65_536), ENDED + 204 * 65_536);
}

#[test]
fn a_deep_expression() {
    assert_eq!(answered(deep_expression(), b"\n", 65_536), ENDED + 65_536);
}

#[test]
fn a_deep_sum_to_the_right() {
    assert_eq!(answered(deep_sum(true), b"\n", 65_536), ENDED + 65_536);
}

#[test]
fn a_deep_sum_to_the_left() {
    assert_eq!(answered(deep_sum(false), b"\n", 65_536), ENDED + 65_536);
}

#[test]
fn a_deep_subscript() {
    assert_eq!(answered(deep_subscript(), b"\n", 65_536), BROKEN + 65_536);
}

#[test]
fn a_deep_constant() {
    assert_eq!(answered(deep_constant(), b"\n", 65_536), ENDED + 2 * 65_536);
}

#[test]
fn a_deep_given() {
    assert_eq!(answered(deep_given(), b"\n", 65_536), ENDED + 65_536);
}

#[test]
fn absences_fill_every_strip() {
    // Of each loop 257 tests and 256 writes; then its output waits.
    let steps = 4 * (257 + 256);
    let stuck = answered(absences_everywhere(), b"\n", 65_536);
    assert_eq!(stuck, STUCK + steps * 65_536);
}

#[test]
fn deep_loops_are_spent() {
    let spent = answered(deep_loops(), b"\n", 5_000);
    assert_eq!(spent, SPENT + 5_000 * 65_536);
}

#[test]
fn deep_pars_in_a_loop_are_spent() {
    let spent = answered(deep_pars_in_a_loop(), b"\n", 500);
    assert_eq!(spent, SPENT + 500 * 65_536);
}

#[test]
fn deep_blocks_in_a_loop_are_spent() {
    let spent = answered(deep_blocks_in_a_loop(), b"\n", 500);
    assert_eq!(spent, SPENT + 500 * 65_536);
}

#[test]
fn blocks_of_all_cells_are_spent() {
    let spent = answered(blocks_of_all_cells(), b"\n", 5_000);
    assert_eq!(spent, SPENT + 5_000 * 65_536);
}

#[test]
fn a_wide_seq_in_a_loop_is_spent() {
    let spent = answered(wide_in_a_loop(30), b"\n", 500);
    assert_eq!(spent, SPENT + 500 * 65_536);
}

#[test]
fn a_wide_par_in_a_loop_is_spent() {
    let spent = answered(wide_in_a_loop(31), b"\n", 500);
    assert_eq!(spent, SPENT + 500 * 65_536);
}

#[test]
fn the_largest_of_everything() {
    let rows = largest();
    assert_eq!(rows.len(), 1_023);
    assert_eq!(answered(rows, &readings(), 65_536) & 0xff, 0);
}

/// The verdict with the count of pairs compared, on bytes and on rows, within the stack of a call; then
/// the comparison, with room for the separate program.
fn counted(rows: Vec<[i32; 4]>) -> Checked {
    let table = bytes(&rows);
    let given = Given::new(&table, b"\n", Vec::new(), 5_000);
    let [of_bytes, of_rows] = within(stack(), move || {
        let of_rows = check_rows_counted(rows.as_flattened());
        [check_table_counted(&table), of_rows]
    });
    assert_eq!(of_bytes, of_rows);
    compare_with_room(given);
    of_bytes
}

/// An accepted table with this count.
fn accepted(pairs: u32) -> Checked {
    Checked {
        verdict: Ok(()),
        pairs,
    }
}

#[test]
fn pairs_of_511_components() {
    assert_eq!(counted(skips(511)), accepted(3 * 130_305));
}

#[test]
fn pairs_up_to_the_last_of_508_components() {
    let refusal = Refusal {
        number: 9,
        place: 1,
    };
    let last = Checked {
        verdict: Err(refusal),
        pairs: 3 * 128_778,
    };
    assert_eq!(counted(outputs_after_skips()), last);
}

#[test]
fn pairs_of_508_nested_pars() {
    assert_eq!(counted(nested_pars()), accepted(3 * 6));
}

#[test]
fn pairs_of_255_nested_pars_with_two_members() {
    assert_eq!(counted(deep_pars_in_a_loop()), accepted(3 * 255));
}

#[test]
fn pairs_of_the_largest_of_everything() {
    // 8 inputs, 8 outputs, 231 assignments and a SKIP: 248 members
    assert_eq!(counted(largest()), accepted(3 * 30_628));
}

/// Reads, checks and runs each of these texts within the stack of a call; then the comparison, with room
/// for the separate program.
fn answer_texts(texts: Vec<Named>) {
    for (name, text) in texts {
        let given = Given::new(text.as_bytes(), b"\n", vec![3, 1, 4], 500);
        let answers = within(stack(), move || {
            let text = text.as_bytes();
            let mut rows = vec![0; 4_096];
            let lent = &mut Buffers::default();
            let read = calls::read_text(text, &mut rows);
            let ran = calls::run_text(text, b"\n", &[3, 1, 4], 500, lent.lend());
            [read, calls::check_text(text), ran]
        });
        println!("{name}: {answers:?}");
        within(65_536, move || {
            let compared = compare_text(&given, &mut Machine::new());
            compared.map(|_| ()).expect("equal answers")
        });
    }
}

#[test]
fn the_largest_texts_that_are_read() {
    answer_texts(largest_read());
}

#[test]
fn the_largest_texts_that_are_refused() {
    answer_texts(largest_refused());
}

/// The names of the tests above.
fn tests_here() -> Vec<String> {
    let this = std::env::current_exe().expect("a name");
    let listed = Command::new(this)
        .arg("--list")
        .output()
        .expect("it starts");
    let text = String::from_utf8(listed.stdout).expect("text");
    let names = text.lines().filter_map(|line| line.strip_suffix(": test"));
    let tests = names.filter(|name| *name != "least_stack");
    tests.map(str::to_string).collect()
}

/// Whether a test passes with so many KiB of stack; a process of its own, since it may overflow.
fn passes(test: &str, kib: usize) -> bool {
    let status = Command::new(std::env::current_exe().expect("a name"))
        .args(["--exact", test])
        .env("OCCAM_STACK", kib.to_string())
        .stdout(Stdio::null())
        .stderr(Stdio::null())
        .status();
    status.expect("it starts").success()
}

#[test]
#[ignore = "measures; by hand"]
fn least_stack() {
    for test in tests_here() {
        let (mut too_little, mut enough) = (0, 4_096);
        while too_little + 8 < enough {
            let middle = (too_little + enough) / 2;
            match passes(&test, middle) {
                true => enough = middle,
                false => too_little = middle,
            }
        }
        println!("{enough:5} KiB {test}");
    }
}
