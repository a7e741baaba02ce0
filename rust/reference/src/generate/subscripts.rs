//! Generated subscripts: literals, constants of a value wanted or of none, and computed ones.

use super::maker::Maker;
use super::rights::Rights;
use crate::kinds::GIVEN;
use crate::limits::Part;
use crate::values::dyadic;

/// 3 TIMES this number is 1.
const THIRD: i32 = -1_431_655_765;
/// The comparisons, operators 8 to 13, and those that give the opposite.
const FIRST_COMPARISON: i32 = 8;
const OPPOSITES: [i32; 6] = [9, 8, 13, 12, 11, 10];

impl Maker<'_> {
    /// A subscript for one number of a name: a literal, a constant of that value, or computed if the
    /// whole name may be used.
    pub fn subscript(
        &mut self,
        rights: &Rights,
        part: Part,
        number: usize,
        whole: bool,
        depth: usize,
    ) -> usize {
        if self.random.chance(self.style.carelessness) {
            return self.stopping(part.length as i32, whole);
        }
        let often = match (part.length, self.style.apart) {
            (1, _) => 5,
            (_, false) => 20,
            (_, true) => 50,
        };
        if self.random.chance(often) {
            return self.some_constant(number as i32);
        }
        if whole && depth > 0 && self.random.chance(30) {
            return self.computed(rights, part.length as i32, depth - 1);
        }
        self.literal(number as i32)
    }

    /// A subscript that stops its action: outside the array, or without a value if the whole name
    /// may be used.
    fn stopping(&mut self, length: i32, whole: bool) -> usize {
        if whole && self.random.chance(40) {
            return self.without_value(2);
        }
        let outside = self
            .random
            .pick(&[-1, length, length + 6, i32::MAX, i32::MIN]);
        match self.random.chance(50) {
            true => self.some_constant(outside),
            false => self.literal(outside),
        }
    }

    /// A subscript that is no constant.
    fn computed(&mut self, rights: &Rights, length: i32, depth: usize) -> usize {
        match self.random.below(5) {
            0 if self.random.chance(10 * self.style.carelessness) => self.expression(rights, depth),
            0..=2 => {
                let (left, right) = (self.expression(rights, depth), self.literal(length));
                self.dyadic(4, left, right)
            }
            _ => self.nearly_constant(rights),
        }
    }

    /// A value that no state changes, or 0 or 1 by GIVEN, but with an element in it.
    pub fn nearly_constant(&mut self, rights: &Rights) -> usize {
        let Some(element) = self.any_element(rights, 0) else {
            return self.literal(0);
        };
        let (operator, first) = match self.random.below(4) {
            0 => return self.monadic(GIVEN, element),
            1 => (15, 1),
            2 => (14, 0),
            _ => (2, 0),
        };
        let first = self.literal(first);
        self.dyadic(operator, first, element)
    }

    /// A subscript that counts for this number: as a constant of its value, or as every number.
    pub fn counting_for(&mut self, rights: &Rights, number: i32) -> usize {
        match self.random.below(4) {
            0 => self.without_value(1),
            1 => self.nearly_constant(rights),
            _ => self.some_constant(number),
        }
    }

    /// A constant of this value, one operator deep or deeper.
    pub fn some_constant(&mut self, value: i32) -> usize {
        let depths: &[usize] = match self.style.size > 40 {
            true => &[1, 1, 2, 3],
            false => &[1, 1, 1, 2],
        };
        let depth = self.random.pick(depths);
        self.constant(value, depth)
    }

    /// A constant of this value, so many operators deep.
    fn constant(&mut self, value: i32, depth: usize) -> usize {
        if depth == 0 {
            return self.literal(value);
        }
        if matches!(value, 0 | 1) && self.random.chance(40) {
            return self.truth(value == 1, depth - 1);
        }
        let some = self.random.between(1, 9) as i32;
        let edge = self.random.pick(&[i32::MAX, i32::MIN, some - i32::MAX]);
        let wrapping = (5, value.wrapping_sub(edge), edge);
        let (operator, left, right) = match self.random.below(9) {
            0 if value > i32::MIN => {
                let operand = self.constant(-value, depth - 1);
                return self.monadic(0, operand);
            }
            1 => (0, value.wrapping_sub(some), some),
            2 => (1, value.wrapping_add(some), some),
            3 => (2, value.wrapping_neg(), -1),
            4 => (3, value.wrapping_mul(some).wrapping_add(some - 1), some),
            5 => (
                4,
                value.wrapping_mul(2).wrapping_add(some),
                value.wrapping_add(some),
            ),
            6 => (6, value.wrapping_add(edge), edge),
            7 => (7, 3, value.wrapping_mul(THIRD)),
            _ => wrapping,
        };
        let (operator, left, right) = match dyadic(operator, left, || Ok(right)) == Ok(value) {
            true => (operator, left, right),
            false => wrapping,
        };
        let (left, right) = self.two_constants(left, right, depth - 1);
        self.dyadic(operator, left, right)
    }

    /// Two constants of these values, one of them so many operators deep.
    fn two_constants(&mut self, left: i32, right: i32, depth: usize) -> (usize, usize) {
        match self.random.chance(50) {
            true => (self.constant(left, depth), self.literal(right)),
            false => (self.literal(left), self.constant(right, depth)),
        }
    }

    /// A constant of value 1 or 0 by a comparison, NOT, AND or OR.
    fn truth(&mut self, wanted: bool, depth: usize) -> usize {
        let some_true = self.random.pick(&[1, -1, 2, 7]);
        let (operator, left, right) = match (self.random.below(6), wanted) {
            (0, _) => {
                let operand = self.constant(if wanted { 0 } else { some_true }, depth);
                return self.monadic(1, operand);
            }
            (1, true) => (14, some_true, 2),
            (1, false) => (15, 0, 0),
            (2..=3, _) => return self.by_first_operand(wanted, some_true, depth),
            _ => self.comparison(wanted),
        };
        let (left, right) = self.two_constants(left, right, depth);
        self.dyadic(operator, left, right)
    }

    /// AND with a false first operand or OR with a true one; the second often has no value.
    fn by_first_operand(&mut self, wanted: bool, some_true: i32, depth: usize) -> usize {
        let (operator, first) = if wanted { (15, some_true) } else { (14, 0) };
        let first = self.constant(first, depth);
        let second = match self.random.chance(70) {
            true => self.without_value(0),
            false => self.literal(some_true),
        };
        self.dyadic(operator, first, second)
    }

    /// A comparison of two values that holds or not, as wanted.
    fn comparison(&mut self, wanted: bool) -> (i32, i32, i32) {
        let mut some = || self.random.pick(&[-2, 0, 1, 1, 3, i32::MIN, i32::MAX]);
        let (left, right) = (some(), some());
        let number = self.random.below(OPPOSITES.len());
        let operator = FIRST_COMPARISON + number as i32;
        let holds = dyadic(operator, left, || Ok(right)) == Ok(1);
        match holds == wanted {
            true => (operator, left, right),
            false => (OPPOSITES[number], left, right),
        }
    }

    /// A constant without a value, at most so many operators above the one that fails.
    pub fn without_value(&mut self, depth: usize) -> usize {
        if depth > 0 && self.random.chance(40) {
            return self.over_no_value(depth - 1);
        }
        let least = i32::MIN;
        if self.random.chance(15) {
            let operand = self.literal(least);
            return self.monadic(0, operand);
        }
        let (operator, left, right) = self.random.pick(&[
            (3, 1, 0),
            (4, 1, 0),
            (0, i32::MAX, 1),
            (1, least, 1),
            (2, 65_536, 65_536),
            (3, least, -1),
        ]);
        let (left, right) = (self.literal(left), self.literal(right));
        self.dyadic(operator, left, right)
    }

    /// An operator that needs the value of an operand which has none.
    fn over_no_value(&mut self, depth: usize) -> usize {
        let failing = self.without_value(depth);
        match self.random.below(3) {
            0 => {
                let operator = self.random.below(2) as i32;
                self.monadic(operator, failing)
            }
            1 => {
                let (operator, right) = (self.random.below(16) as i32, self.literal(0));
                self.dyadic(operator, failing, right)
            }
            _ => {
                let (operator, left) = (self.random.below(14) as i32, self.literal(0));
                self.dyadic(operator, left, failing)
            }
        }
    }
}
