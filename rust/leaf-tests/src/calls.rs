//! The calls of the proved leaves: all that is `unsafe`.
//!
//! Each leaf is `extern "C"` and takes a slice as its pointer and its length. It reads and
//! writes within that length only, keeps no pointer, and always returns (its proof shows all
//! three). So a call is sound if each pointer comes from a live slice of the length passed,
//! and a changeable slice overlaps no other; Rust's references below give both.

mod leaf {
    extern "C" {
        pub fn leaf_number(field: *const u8, n: usize, out: *mut i32, m: usize) -> u32;
        pub fn leaf_dyadic(op: u32, x: i32, y: i32, out: *mut i32, m: usize) -> u32;
        pub fn leaf_monadic(op: u32, x: i32, out: *mut i32, m: usize) -> u32;
        pub fn leaf_printed(z: i32, out: *mut u8, m: usize) -> usize;
        pub fn leaf_check(bytes: *const u8, n: usize, place: *mut u32, m: usize) -> u32;
        pub fn leaf_sheet(
            rows: *const i32,
            rows_length: usize,
            sheet: *const u8,
            sheet_length: usize,
            values: *mut i32,
            values_length: usize,
            marks: *mut u8,
            marks_length: usize,
            place: *mut u32,
            place_length: usize,
        ) -> u32;
        pub fn leaf_value(
            rows: *const i32,
            rows_length: usize,
            values: *const i32,
            values_length: usize,
            marks: *const u8,
            marks_length: usize,
            row: usize,
            out: *mut i32,
            out_length: usize,
        ) -> u32;
    }
}

/// 1 and the field's number in `out`, or 0.
pub fn number(field: &[u8], out: &mut [i32]) -> u32 {
    // SAFETY: both pointers come from slices, with their lengths; `out` is borrowed alone.
    unsafe { leaf::leaf_number(field.as_ptr(), field.len(), out.as_mut_ptr(), out.len()) }
}

/// 0 and the operator's value in `out`, or the reason for none.
pub fn dyadic(op: u32, x: i32, y: i32, out: &mut [i32]) -> u32 {
    // SAFETY: the pointer comes from a slice, with its length, borrowed alone.
    unsafe { leaf::leaf_dyadic(op, x, y, out.as_mut_ptr(), out.len()) }
}

/// 0 and the operator's value in `out`, or the reason for none.
pub fn monadic(op: u32, x: i32, out: &mut [i32]) -> u32 {
    // SAFETY: the pointer comes from a slice, with its length, borrowed alone.
    unsafe { leaf::leaf_monadic(op, x, out.as_mut_ptr(), out.len()) }
}

/// The length of the number's text, which is at the start of `out`; 0 if `out` is too short.
pub fn printed(z: i32, out: &mut [u8]) -> usize {
    // SAFETY: the pointer comes from a slice, with its length, borrowed alone.
    unsafe { leaf::leaf_printed(z, out.as_mut_ptr(), out.len()) }
}

/// The refusal of a table's bytes by the stages 2 to 6, with its place in `place`; 0 if none.
pub fn check(bytes: &[u8], place: &mut [u32]) -> u32 {
    // SAFETY: both pointers come from slices, with their lengths; `place` is borrowed alone.
    unsafe { leaf::leaf_check(bytes.as_ptr(), bytes.len(), place.as_mut_ptr(), place.len()) }
}

/// 10 and the line in `place`; or 1 if there is no room for the channels; or 0, the count of
/// lines in `place`, and the readings.
pub fn sheet(
    rows: &[i32],
    sheet: &[u8],
    values: &mut [i32],
    marks: &mut [u8],
    place: &mut [u32],
) -> u32 {
    // SAFETY: each pointer comes from a slice, with its length; the last three slices are
    // borrowed alone, so none overlaps another.
    unsafe {
        leaf::leaf_sheet(
            rows.as_ptr(),
            rows.len(),
            sheet.as_ptr(),
            sheet.len(),
            values.as_mut_ptr(),
            values.len(),
            marks.as_mut_ptr(),
            marks.len(),
            place.as_mut_ptr(),
            place.len(),
        )
    }
}

/// 0 and the value of a row's expression in `out`, or the reason for none.
pub fn value(rows: &[i32], values: &[i32], marks: &[u8], row: usize, out: &mut [i32]) -> u32 {
    // SAFETY: each pointer comes from a slice, with its length; `out` is borrowed alone.
    unsafe {
        leaf::leaf_value(
            rows.as_ptr(),
            rows.len(),
            values.as_ptr(),
            values.len(),
            marks.as_ptr(),
            marks.len(),
            row,
            out.as_mut_ptr(),
            out.len(),
        )
    }
}
