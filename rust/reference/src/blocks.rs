//! Blocks (request 05): no root, one for a name, and the name only beneath it (refusal 14).

use crate::kinds::{declaration_count, rows_referred_to, ASSIGNMENT, BLOCK, ELEMENT};
use crate::refusal::Refusal;
use crate::table::Row;

/// "A block as root, a second block for a name, or the name outside its block, is refused as 14 at
/// the lowest such row, after 6." The rows have passed refusals 4 and 5.
pub fn check_blocks(rows: &[Row]) -> Result<(), Refusal> {
    let root = declaration_count(rows);
    let block_of = blocks_of_names(rows);
    let blocks_above = blocks_above(rows);
    let at_fault = |row: usize| match rows[row].kind {
        BLOCK => row == root || block_of[rows[row].a as usize] != Some(row),
        ELEMENT | ASSIGNMENT => {
            block_of[rows[row].a as usize].is_some_and(|block| !blocks_above[row].contains(&block))
        }
        _ => false,
    };
    match (root..rows.len()).find(|&row| at_fault(row)) {
        Some(row) => Err(Refusal::new(14, row)),
        None => Ok(()),
    }
}

/// For each declaration: the lowest block that names it, which is its block.
fn blocks_of_names(rows: &[Row]) -> Vec<Option<usize>> {
    let mut block_of = vec![None; declaration_count(rows)];
    for (index, row) in rows.iter().enumerate() {
        if row.kind == BLOCK {
            block_of[row.a as usize].get_or_insert(index);
        }
    }
    block_of
}

/// For each row: the blocks beneath which it stands. References go to higher rows, so that a row's
/// own blocks are known before those of the rows it refers to.
fn blocks_above(rows: &[Row]) -> Vec<Vec<usize>> {
    let mut above: Vec<Vec<usize>> = vec![Vec::new(); rows.len()];
    for (index, row) in rows.iter().enumerate() {
        let mut blocks = above[index].clone();
        blocks.extend((row.kind == BLOCK).then_some(index));
        for beneath in rows_referred_to(row) {
            above[beneath].clone_from(&blocks);
        }
    }
    above
}
