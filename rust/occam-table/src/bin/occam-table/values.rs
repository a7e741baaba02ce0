//! The value of an expression in a state, for words about a state. It settles no answer.

use crate::kinds::{DYADIC, ELEMENT, GIVEN, LITERAL, MONADIC};
use crate::program::Program;

/// The value of an expression; none if it has none.
pub fn value(program: &Program, cells: &[Option<i32>], expression: i32) -> Option<i32> {
    let row = program.row(expression)?;
    match row.kind {
        LITERAL => Some(row.a()),
        ELEMENT => cells[position(program, cells, row.a(), row.b())?],
        MONADIC if row.a() == GIVEN => given(program, cells, row.b()),
        MONADIC => monadic(row.a(), value(program, cells, row.b())?),
        DYADIC => {
            let left = value(program, cells, row.b())?;
            match (row.a(), left) {
                (14, 0) => Some(0),
                (15, 1..) | (15, ..=-1) => Some(1),
                (operator, _) => dyadic(operator, left, value(program, cells, row.c())?),
            }
        }
        _ => None,
    }
}

/// The value of a constant, an expression made only of literals and operators; none if it is no
/// constant or has no value.
pub fn constant(program: &Program, expression: i32) -> Option<i32> {
    let row = usize::try_from(expression).ok()?;
    let mut rows = std::iter::once(row).chain(program.beneath(row));
    let has_element = rows.any(|row| program.rows[row].kind == ELEMENT);
    (!has_element)
        .then(|| value(program, &[], expression))
        .flatten()
}

/// The subscript's value, if it is inside what is declared.
pub fn subscript(
    program: &Program,
    cells: &[Option<i32>],
    declaration: i32,
    expression: i32,
) -> Option<usize> {
    let size = usize::try_from(program.declaration(declaration)?.a()).ok()?;
    let number = usize::try_from(value(program, cells, expression)?).ok()?;
    (number < size).then_some(number)
}

/// The position among all cells, or all elements, that a name and a subscript give.
fn position(
    program: &Program,
    cells: &[Option<i32>],
    declaration: i32,
    expression: i32,
) -> Option<usize> {
    let number = subscript(program, cells, declaration, expression)?;
    Some(program.part(usize::try_from(declaration).ok()?).start + number)
}

/// GIVEN of an element: 1 if its cell is set, 0 if not.
fn given(program: &Program, cells: &[Option<i32>], element: i32) -> Option<i32> {
    let element = program.row(element)?;
    let cell = position(program, cells, element.a(), element.b())?;
    Some(i32::from(cells[cell].is_some()))
}

/// A monadic operator's value, of minus or NOT.
fn monadic(operator: i32, operand: i32) -> Option<i32> {
    match operator {
        0 => operand.checked_neg(),
        _ => Some(i32::from(operand == 0)),
    }
}

/// A dyadic operator's value, both operands looked at.
fn dyadic(operator: i32, left: i32, right: i32) -> Option<i32> {
    match operator {
        0 => left.checked_add(right),
        1 => left.checked_sub(right),
        2 => left.checked_mul(right),
        3 => left.checked_div(right),
        4 if right == 0 => None,
        4 => Some(left.wrapping_rem(right)),
        5 => Some(left.wrapping_add(right)),
        6 => Some(left.wrapping_sub(right)),
        7 => Some(left.wrapping_mul(right)),
        8 => Some(i32::from(left == right)),
        9 => Some(i32::from(left != right)),
        10 => Some(i32::from(left < right)),
        11 => Some(i32::from(left <= right)),
        12 => Some(i32::from(left > right)),
        13 => Some(i32::from(left >= right)),
        14 | 15 => Some(i32::from(right != 0)),
        _ => None,
    }
}

#[cfg(test)]
mod tests {
    use super::*;

    #[test]
    fn values_in_a_state() {
        // x[1] AND (7 / x[0])
        let program = Program::new(&[
            [1, 2, 0, 0],
            [13, 14, 2, 4],
            [11, 0, 3, 0],
            [10, 1, 0, 0],
            [13, 3, 5, 6],
            [10, 7, 0, 0],
            [11, 0, 7, 0],
            [10, 0, 0, 0],
        ]);
        assert_eq!(value(&program, &[None, None], 1), None);
        assert_eq!(value(&program, &[None, Some(0)], 1), Some(0));
        assert_eq!(value(&program, &[None, Some(1)], 1), None);
        assert_eq!(value(&program, &[Some(0), Some(1)], 1), None);
        assert_eq!(value(&program, &[Some(2), Some(1)], 1), Some(1));
        assert_eq!(subscript(&program, &[], 0, 5), None);
        assert_eq!(subscript(&program, &[], 0, 3), Some(1));
    }

    #[test]
    fn values_of_constants() {
        // 2 - (0 AND (1 / 0)), then 0 AND x[0], then GIVEN x[1]
        let program = Program::new(&[
            [1, 2, 0, 0],
            [13, 1, 2, 3],
            [10, 2, 0, 0],
            [13, 14, 4, 5],
            [10, 0, 0, 0],
            [13, 3, 6, 7],
            [10, 1, 0, 0],
            [10, 0, 0, 0],
            [13, 14, 9, 10],
            [10, 0, 0, 0],
            [11, 0, 11, 0],
            [10, 0, 0, 0],
            [12, 2, 13, 0],
            [11, 0, 14, 0],
            [10, 1, 0, 0],
        ]);
        assert_eq!(constant(&program, 1), Some(2));
        assert_eq!(constant(&program, 5), None);
        assert_eq!(constant(&program, 8), None);
        assert_eq!(constant(&program, 12), None);
        assert_eq!(constant(&program, 14), Some(1));
    }

    #[test]
    fn given_in_a_state() {
        // GIVEN x[1], then GIVEN x[2] of two cells
        let program = Program::new(&[
            [1, 2, 0, 0],
            [12, 2, 2, 0],
            [11, 0, 3, 0],
            [10, 1, 0, 0],
            [12, 2, 5, 0],
            [11, 0, 6, 0],
            [10, 2, 0, 0],
        ]);
        assert_eq!(value(&program, &[None, None], 1), Some(0));
        assert_eq!(value(&program, &[None, Some(0)], 1), Some(1));
        assert_eq!(value(&program, &[Some(1), Some(0)], 4), None);
    }
}
