//! Values: an expression has a number, or the first met reason for no value.

use crate::kinds::{ELEMENT, GIVEN, LITERAL, MONADIC};
use crate::program::Program;

/// Why there is no value.
#[derive(Clone, Copy, Debug, PartialEq, Eq, Hash)]
pub enum Reason {
    /// 1: an unset cell is read.
    Unset = 1,
    /// 2: a subscript is outside the array.
    Subscript = 2,
    /// 3: the result doesn't fit.
    Fit = 3,
    /// 4: a zero divisor.
    Divisor = 4,
}

impl Reason {
    /// The paper's number of this reason.
    pub fn number(self) -> u8 {
        self as u8
    }
}

/// The cells of a run: none or a number each.
pub type Cells = [Option<i32>];

/// The value of an expression; operands are taken left to right.
pub fn value(program: &Program, cells: &Cells, row: usize) -> Result<i32, Reason> {
    let expression = &program.rows[row];
    match expression.kind {
        LITERAL => Ok(expression.a),
        ELEMENT => cells[number_named(program, cells, row)?].ok_or(Reason::Unset),
        MONADIC if expression.a == GIVEN => given(program, cells, expression.b as usize),
        MONADIC => monadic(expression.a, value(program, cells, expression.b as usize)?),
        _ => {
            let left = value(program, cells, expression.b as usize)?;
            let right = || value(program, cells, expression.c as usize);
            dyadic(expression.a, left, right)
        }
    }
}

/// What an output of an expression passes: a value, or the absence of an unset element.
pub fn passed(program: &Program, cells: &Cells, row: usize) -> Result<Option<i32>, Reason> {
    match program.rows[row].kind {
        ELEMENT => Ok(cells[number_named(program, cells, row)?]),
        _ => value(program, cells, row).map(Some),
    }
}

/// GIVEN of an element: 1 if its cell is set, 0 if not.
fn given(program: &Program, cells: &Cells, element: usize) -> Result<i32, Reason> {
    let cell = number_named(program, cells, element)?;
    Ok(i32::from(cells[cell].is_some()))
}

/// The cell or channel element that a row names by field a and subscript b.
pub fn number_named(program: &Program, cells: &Cells, row: usize) -> Result<usize, Reason> {
    let subscript = value(program, cells, program.rows[row].b as usize)?;
    program
        .part_named_by(row)
        .at(subscript)
        .ok_or(Reason::Subscript)
}

/// Whether a boolean is true: any number but 0 is.
pub fn is_true(program: &Program, cells: &Cells, row: usize) -> Result<bool, Reason> {
    Ok(value(program, cells, row)? != 0)
}

/// A monadic operator on a value: 0 minus, 1 NOT.
pub fn monadic(operator: i32, operand: i32) -> Result<i32, Reason> {
    match operator {
        0 => operand.checked_neg().ok_or(Reason::Fit),
        _ => Ok(i32::from(operand == 0)),
    }
}

/// A dyadic operator; the second operand is looked at only if the operator needs it.
pub fn dyadic(
    operator: i32,
    left: i32,
    right: impl FnOnce() -> Result<i32, Reason>,
) -> Result<i32, Reason> {
    match operator {
        14 if left == 0 => return Ok(0),
        15 if left != 0 => return Ok(1),
        _ => {}
    }
    let right = right()?;
    match operator {
        0 => left.checked_add(right).ok_or(Reason::Fit),
        1 => left.checked_sub(right).ok_or(Reason::Fit),
        2 => left.checked_mul(right).ok_or(Reason::Fit),
        3 if right == 0 => Err(Reason::Divisor),
        3 => left.checked_div(right).ok_or(Reason::Fit),
        4 if right == 0 => Err(Reason::Divisor),
        4 => Ok(left.wrapping_rem(right)),
        5 => Ok(left.wrapping_add(right)),
        6 => Ok(left.wrapping_sub(right)),
        7 => Ok(left.wrapping_mul(right)),
        8 => Ok(i32::from(left == right)),
        9 => Ok(i32::from(left != right)),
        10 => Ok(i32::from(left < right)),
        11 => Ok(i32::from(left <= right)),
        12 => Ok(i32::from(left > right)),
        13 => Ok(i32::from(left >= right)),
        // 14 AND with a true first operand, 15 OR with a false one: the second decides.
        _ => Ok(i32::from(right != 0)),
    }
}

#[cfg(test)]
mod tests {
    use super::{dyadic, monadic, Reason};

    const MIN: i32 = i32::MIN;
    const MAX: i32 = i32::MAX;

    fn of(operator: i32, left: i32, right: i32) -> Result<i32, Reason> {
        dyadic(operator, left, || Ok(right))
    }

    #[test]
    fn arithmetic_operators() {
        assert_eq!(of(0, 2, 3), Ok(5));
        assert_eq!(of(0, MAX, 1), Err(Reason::Fit));
        assert_eq!(of(1, 2, 3), Ok(-1));
        assert_eq!(of(1, MIN, 1), Err(Reason::Fit));
        assert_eq!(of(2, -2, 3), Ok(-6));
        assert_eq!(of(2, 65_536, 32_768), Err(Reason::Fit));
        assert_eq!(of(2, -65_536, 32_768), Ok(MIN));
    }

    #[test]
    fn division_rounds_towards_zero() {
        assert_eq!(of(3, -7, 2), Ok(-3));
        assert_eq!(of(3, 7, -2), Ok(-3));
        assert_eq!(of(4, -7, 2), Ok(-1));
        assert_eq!(of(4, 7, -2), Ok(1));
        assert_eq!(of(3, MIN, -1), Err(Reason::Fit));
        assert_eq!(of(4, MIN, -1), Ok(0));
        assert_eq!(of(3, MIN, 0), Err(Reason::Divisor));
        assert_eq!(of(4, 0, 0), Err(Reason::Divisor));
    }

    #[test]
    fn modulo_operators_wrap() {
        assert_eq!(of(5, MAX, 1), Ok(MIN));
        assert_eq!(of(6, MIN, 1), Ok(MAX));
        assert_eq!(of(7, 65_536, 32_768), Ok(MIN));
        assert_eq!(of(7, MIN, MIN), Ok(0));
    }

    #[test]
    fn comparisons() {
        for (left, right) in [(1, 2), (2, 2), (2, 1), (MIN, MAX)] {
            assert_eq!(of(8, left, right), Ok(i32::from(left == right)));
            assert_eq!(of(9, left, right), Ok(i32::from(left != right)));
            assert_eq!(of(10, left, right), Ok(i32::from(left < right)));
            assert_eq!(of(11, left, right), Ok(i32::from(left <= right)));
            assert_eq!(of(12, left, right), Ok(i32::from(left > right)));
            assert_eq!(of(13, left, right), Ok(i32::from(left >= right)));
        }
    }

    #[test]
    fn and_or_not_give_0_or_1() {
        assert_eq!(of(14, 2, 4), Ok(1));
        assert_eq!(of(14, 2, 0), Ok(0));
        assert_eq!(of(15, 0, 7), Ok(1));
        assert_eq!(of(15, 0, 0), Ok(0));
        assert_eq!(of(15, -3, 0), Ok(1));
        assert_eq!(monadic(1, 5), Ok(0));
        assert_eq!(monadic(1, 0), Ok(1));
        assert_eq!(monadic(0, 5), Ok(-5));
        assert_eq!(monadic(0, MIN), Err(Reason::Fit));
    }

    #[test]
    fn second_operand_is_looked_at_only_if_needed() {
        let failing = || Err(Reason::Divisor);
        assert_eq!(dyadic(14, 0, failing), Ok(0));
        assert_eq!(dyadic(15, 1, failing), Ok(1));
        assert_eq!(dyadic(14, 1, failing), Err(Reason::Divisor));
        assert_eq!(dyadic(15, 0, failing), Err(Reason::Divisor));
        assert_eq!(dyadic(3, 1, failing), Err(Reason::Divisor));
    }
}
