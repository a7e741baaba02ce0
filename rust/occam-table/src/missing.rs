//! What stands for the proved library where its archive is missing: every call fails.

use crate::buffers::{Lent, LentTrace};
use crate::MISSING;

/// Whether the proved library is linked.
pub const LINKED: bool = false;

macro_rules! missing {
    ($($name:ident($($given:ty),*) -> $told:ty;)*) => {
        $(
            /// Fails: the proved library is not linked.
            pub fn $name($(_: $given),*) -> $told {
                panic!("{MISSING}")
            }
        )*
    };
}

missing! {
    check_rows(&[i32]) -> u64;
    check_table(&[u8]) -> u64;
    check_rows_counted(&[i32]) -> u64;
    check_table_counted(&[u8]) -> u64;
    run_rows(&[i32], &[u8], &[u16], u32, Lent) -> u64;
    run_table(&[u8], &[u8], &[u16], u32, Lent) -> u64;
    run_rows_traced(&[i32], &[u8], &[u16], u32, Lent, LentTrace) -> u64;
    run_table_traced(&[u8], &[u8], &[u16], u32, Lent, LentTrace) -> u64;
    read_rows(&[u8], &mut [i32]) -> u64;
    read_text(&[u8], &mut [i32]) -> u64;
    check_text(&[u8]) -> u64;
    run_text(&[u8], &[u8], &[u16], u32, Lent) -> u64;
    strip(&[i32], usize) -> u64;
}
