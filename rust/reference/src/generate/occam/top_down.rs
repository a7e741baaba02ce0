//! The top-down form of a table: each row before the rows of its a, b and c in turn.

use crate::kinds::{declaration_count, fields_of, Field, BLOCK};
use crate::table::Row;

/// The rows of an accepted table numbered from the top. The variables of blocks follow the other
/// declarations in the order of their blocks.
pub fn top_down(rows: &[Row]) -> Vec<Row> {
    let root = declaration_count(rows);
    let mut tree = Vec::new();
    visit(rows, root, &mut tree);
    let of_blocks: Vec<usize> = tree
        .iter()
        .filter(|&&row| rows[row].kind == BLOCK)
        .map(|&row| rows[row].a as usize)
        .collect();
    let others = (0..root).filter(|row| !of_blocks.contains(row));
    let mut order: Vec<usize> = others.collect();
    order.extend(&of_blocks);
    order.extend(&tree);
    let mut number = vec![0; rows.len()];
    for (place, &row) in order.iter().enumerate() {
        number[row] = place as i32;
    }
    order
        .iter()
        .map(|&row| renumbered(&rows[row], &number))
        .collect()
}

/// Adds a row and all rows beneath it.
fn visit(rows: &[Row], row: usize, order: &mut Vec<usize>) {
    order.push(row);
    for beneath in crate::kinds::rows_referred_to(&rows[row]) {
        visit(rows, beneath, order);
    }
}

/// A row with its names and references in new numbers.
fn renumbered(row: &Row, number: &[i32]) -> Row {
    let fields = fields_of(row.kind).unwrap_or([Field::Unused; 3]);
    let mut new = row.fields();
    for (value, field) in new.iter_mut().zip(fields) {
        let is_row = !matches!(field, Field::Unused | Field::Value | Field::Within(..));
        if is_row && *value >= 0 {
            *value = number[*value as usize];
        }
    }
    Row::new(row.kind, new[0], new[1], new[2])
}
