//! The calls of the proved library: all that is `unsafe`.
//!
//! Each exported function is `extern "C"` and takes a slice as its pointer and its length. It
//! reads and writes within that length only, keeps no pointer, and always returns (its proof
//! shows all three). So a call is sound if each pointer comes from a live slice of the length
//! passed, and a changeable slice overlaps no other. The functions below take slices, and a
//! changeable one is borrowed alone: Rust gives both.
#![allow(unsafe_code)]

use crate::buffers::{Lent, LentTrace};

mod exported {
    /// Declares an exported run: a table, a text or rows, the sheet, the choices and the budget, the seven
    /// lent buffers, then the further lists of a traced one.
    macro_rules! declare_run {
        ($name:ident($table:ty $(, $list:ty)*)) => {
            pub fn $name(
                table: *const $table,
                table_length: usize,
                sheet: *const u8,
                sheet_length: usize,
                choices: *const u16,
                choices_length: usize,
                budget: u32,
                cells: *mut i32,
                cells_length: usize,
                marks: *mut u8,
                marks_length: usize,
                states: *mut u8,
                states_length: usize,
                places: *mut u32,
                places_length: usize,
                numbers: *mut i32,
                numbers_length: usize,
                counts: *mut u32,
                counts_length: usize,
                output_marks: *mut u8,
                output_marks_length: usize,
                $(_: *mut $list, _: usize,)*
            ) -> u64;
        };
    }

    extern "C" {
        pub fn occam_check_rows(rows: *const i32, rows_length: usize) -> u64;
        pub fn occam_check_table(table: *const u8, table_length: usize) -> u64;
        pub fn occam_check_rows_counted(rows: *const i32, rows_length: usize) -> u64;
        pub fn occam_check_table_counted(table: *const u8, table_length: usize) -> u64;
        declare_run!(occam_run_rows(i32));
        declare_run!(occam_run_table(u8));
        declare_run!(occam_run_rows_traced(i32, u16, u16));
        declare_run!(occam_run_table_traced(u8, u16, u16));
        pub fn occam_read_text(
            text: *const u8,
            text_length: usize,
            rows: *mut i32,
            rows_length: usize,
        ) -> u64;
        pub fn occam_check_text(text: *const u8, text_length: usize) -> u64;
        declare_run!(occam_run_text(u8));
        pub fn occam_read_rows(
            table: *const u8,
            table_length: usize,
            rows: *mut i32,
            rows_length: usize,
        ) -> u64;
        pub fn occam_strip(rows: *const i32, rows_length: usize, channel: usize) -> u64;
    }
}

/// Whether the proved library is linked.
pub const LINKED: bool = true;

/// The packed verdict on rows lent as numbers.
pub fn check_rows(rows: &[i32]) -> u64 {
    // SAFETY: the pointer comes from a slice, with its length; nothing is written.
    unsafe { exported::occam_check_rows(rows.as_ptr(), rows.len()) }
}

/// The packed verdict on a table's bytes.
pub fn check_table(table: &[u8]) -> u64 {
    // SAFETY: the pointer comes from a slice, with its length; nothing is written.
    unsafe { exported::occam_check_table(table.as_ptr(), table.len()) }
}

/// The packed verdict on rows lent as numbers, with the count of pairs compared.
pub fn check_rows_counted(rows: &[i32]) -> u64 {
    // SAFETY: the pointer comes from a slice, with its length; nothing is written.
    unsafe { exported::occam_check_rows_counted(rows.as_ptr(), rows.len()) }
}

/// The packed verdict on a table's bytes, with the count of pairs compared.
pub fn check_table_counted(table: &[u8]) -> u64 {
    // SAFETY: the pointer comes from a slice, with its length; nothing is written.
    unsafe { exported::occam_check_table_counted(table.as_ptr(), table.len()) }
}

/// Calls an exported run: each slice goes as its pointer and its length.
macro_rules! call_run {
    ($name:ident($table:expr, $asked:expr, $lent:expr $(, $list:expr)*)) => {{
        let (sheet, choices, budget) = $asked;
        // SAFETY: each pointer comes from a slice, with its length. The seven slices of `lent` and
        // the lists of a traced run are borrowed alone, so none overlaps another or the three that
        // are only read.
        unsafe {
            exported::$name(
                $table.as_ptr(),
                $table.len(),
                sheet.as_ptr(),
                sheet.len(),
                choices.as_ptr(),
                choices.len(),
                budget,
                $lent.cells.as_mut_ptr(),
                $lent.cells.len(),
                $lent.marks.as_mut_ptr(),
                $lent.marks.len(),
                $lent.states.as_mut_ptr(),
                $lent.states.len(),
                $lent.places.as_mut_ptr(),
                $lent.places.len(),
                $lent.numbers.as_mut_ptr(),
                $lent.numbers.len(),
                $lent.counts.as_mut_ptr(),
                $lent.counts.len(),
                $lent.output_marks.as_mut_ptr(),
                $lent.output_marks.len(),
                $($list.as_mut_ptr(), $list.len(),)*
            )
        }
    }};
}

/// The packed answer to rows lent as numbers; a run leaves its state in what is lent.
pub fn run_rows(rows: &[i32], sheet: &[u8], choices: &[u16], budget: u32, lent: Lent) -> u64 {
    call_run!(occam_run_rows(rows, (sheet, choices, budget), lent))
}

/// The packed answer to a table's bytes; a run leaves its state in what is lent.
pub fn run_table(table: &[u8], sheet: &[u8], choices: &[u16], budget: u32, lent: Lent) -> u64 {
    call_run!(occam_run_table(table, (sheet, choices, budget), lent))
}

/// The packed answer to rows lent as numbers; a run leaves its state and each of its steps in
/// what is lent.
pub fn run_rows_traced(
    rows: &[i32],
    sheet: &[u8],
    choices: &[u16],
    budget: u32,
    lent: Lent,
    trace: LentTrace,
) -> u64 {
    let asked = (sheet, choices, budget);
    call_run!(occam_run_rows_traced(
        rows,
        asked,
        lent,
        trace.ready,
        trace.taken
    ))
}

/// The packed answer to a table's bytes; a run leaves its state and each of its steps in
/// what is lent.
pub fn run_table_traced(
    table: &[u8],
    sheet: &[u8],
    choices: &[u16],
    budget: u32,
    lent: Lent,
    trace: LentTrace,
) -> u64 {
    let asked = (sheet, choices, budget);
    call_run!(occam_run_table_traced(
        table,
        asked,
        lent,
        trace.ready,
        trace.taken
    ))
}

/// How many numbers of a table's rows were written to `rows`; 0 if the bytes are refused or
/// `rows` is shorter than 4,096.
pub fn read_rows(table: &[u8], rows: &mut [i32]) -> u64 {
    // SAFETY: both pointers come from slices, with their lengths; `rows` is borrowed alone.
    unsafe { exported::occam_read_rows(table.as_ptr(), table.len(), rows.as_mut_ptr(), rows.len()) }
}

/// The packed reading of a text: its rows in `rows` and 65,536 times their count, or a refusal,
/// which writes nothing; `rows` shorter than 4,096 is refusal 1.
pub fn read_text(text: &[u8], rows: &mut [i32]) -> u64 {
    // SAFETY: both pointers come from slices, with their lengths; `rows` is borrowed alone.
    unsafe { exported::occam_read_text(text.as_ptr(), text.len(), rows.as_mut_ptr(), rows.len()) }
}

/// The packed verdict on a text.
pub fn check_text(text: &[u8]) -> u64 {
    // SAFETY: the pointer comes from a slice, with its length; nothing is written.
    unsafe { exported::occam_check_text(text.as_ptr(), text.len()) }
}

/// The packed answer to a text; a run leaves its state in what is lent.
pub fn run_text(text: &[u8], sheet: &[u8], choices: &[u16], budget: u32, lent: Lent) -> u64 {
    call_run!(occam_run_text(text, (sheet, choices, budget), lent))
}

/// Where the strip of an output channel begins, and 65,536 times its capacity; `channel`
/// counts the channels of role 2 from 0, in row order.
pub fn strip(rows: &[i32], channel: usize) -> u64 {
    // SAFETY: the pointer comes from a slice, with its length; nothing is written.
    unsafe { exported::occam_strip(rows.as_ptr(), rows.len(), channel) }
}
