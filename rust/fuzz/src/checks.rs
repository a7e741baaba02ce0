//! Verdicts and counts of pairs compared against the separate program.

use crate::packed::{packed_checked, packed_verdict};
use crate::same;
use occam_table::calls;
use reference::Checked;

/// Compares the checks of a table's bytes: the verdict alone, with the count, and by the binding.
pub fn compare_checks_of_bytes(table: &[u8]) -> Result<(), String> {
    let wanted = reference::check_bytes_counted(table);
    let verdict = packed_verdict(&wanted.verdict);
    same("verdict on bytes", calls::check_table(table), verdict)?;
    let counted = calls::check_table_counted(table);
    same("verdict and pairs", counted, packed_checked(&wanted))?;
    compare_binding(occam_table::check_table_counted(table), &wanted)
}

/// Compares the checks of rows lent as numbers in the same way.
pub fn compare_checks_of_rows(rows: &[i32]) -> Result<(), String> {
    let wanted = reference::check_rows_counted(rows);
    let verdict = packed_verdict(&wanted.verdict);
    same("verdict on rows", calls::check_rows(rows), verdict)?;
    let counted = calls::check_rows_counted(rows);
    same(
        "verdict and pairs of rows",
        counted,
        packed_checked(&wanted),
    )?;
    compare_binding(occam_table::check_rows_counted(rows), &wanted)
}

/// Compares the binding's view of a verdict and its count.
fn compare_binding(told: occam_table::Checked, wanted: &Checked) -> Result<(), String> {
    let refusal = told.verdict.err().map(|refusal| refusal.to_string());
    let separate = wanted
        .verdict
        .as_ref()
        .err()
        .map(|refusal| refusal.to_string());
    same("verdict of the binding", refusal, separate)?;
    same("pairs of the binding", told.pairs as usize, wanted.pairs)
}
