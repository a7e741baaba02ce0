//! Constants (request 07): expressions made only of literals and operators, and their values.

use crate::kinds::{DYADIC, LITERAL, MONADIC};
use crate::table::Row;
use crate::values::{dyadic, monadic, Reason};

/// Of a row: none if it is no constant, else the value that it has in every state, or the reason
/// for no value.
pub type Constant = Option<Result<i32, Reason>>;

/// The constant of each row, from the last row up: references go to higher rows.
pub fn constants_of(rows: &[Row]) -> Vec<Constant> {
    let mut constants = vec![None; rows.len()];
    for index in (0..rows.len()).rev() {
        constants[index] = constant(&constants, &rows[index]);
    }
    constants
}

/// The constant of a row whose operands' constants are known. GIVEN has an element as its operand,
/// which is no constant.
fn constant(constants: &[Constant], row: &Row) -> Constant {
    match row.kind {
        LITERAL => Some(Ok(row.a)),
        MONADIC => {
            let operand = constants[row.b as usize]?;
            Some(operand.and_then(|operand| monadic(row.a, operand)))
        }
        DYADIC => {
            let (left, right) = (constants[row.b as usize]?, constants[row.c as usize]?);
            Some(left.and_then(|left| dyadic(row.a, left, || right)))
        }
        _ => None,
    }
}
