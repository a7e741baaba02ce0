//! The clashes of a table's PARs by a slow search that follows the papers' words, under the rule of
//! document 01 or of request 07 about what a subscript counts for; and all comparisons of pairs, of
//! request 03.

use reference::kinds::{
    rows_referred_to, ASSIGNMENT, DYADIC, ELEMENT, GIVEN, INPUT, LITERAL, MONADIC, OUTPUT, PAR,
};
use reference::limits::{check_limits, Layout};
use reference::table::{rows_of_bytes, Row};
use reference::{check_bytes, Refusal};
use std::collections::BTreeSet;

/// What a subscript counts for.
#[derive(Clone, Copy, PartialEq, Eq)]
pub enum Rule {
    /// Document 01: "With a literal subscript only that number of that name counts, and nothing if
    /// it is outside the array; with any other, every number of the name."
    Literal,
    /// Request 07: "A subscript made only of literals and operators now counts as its value. If it
    /// has no value it counts as every number of the name, as before."
    Constant,
    /// The same, but a constant that is no literal counts for nothing.
    WithoutConstants,
    /// The same, but what counts as every number of the name counts for nothing.
    WithoutAll,
}

/// A comparison of two components: the sort by its refusal's number, the PAR, the first member and
/// the second by position. These order it as request 03 says: "the order that the refusal table
/// gives, pairs in one PAR by first, then second member".
pub type Comparison = (u8, u32, usize, usize);

/// Comparisons, each with whether the two clash.
pub type Comparisons = Vec<(Comparison, bool)>;

/// Refusals 7, 8 and 9, each with its PAR; the first is the one that the paper gives.
pub type Clashes = BTreeSet<(u8, u32)>;

/// The clashes of a table under a rule, if no refusal goes before 7.
pub fn clashes(table: &[u8], rule: Rule) -> Option<Clashes> {
    let comparisons = comparisons(table, rule)?.into_iter();
    let clashing = comparisons.filter(|&(_, clash)| clash);
    let refusals = clashing.map(|((number, par, ..), _)| (number, par));
    Some(refusals.collect())
}

/// The comparisons of a table under a rule, each once, in any order, if no refusal goes before 7.
pub fn comparisons(table: &[u8], rule: Rule) -> Option<Comparisons> {
    let refusal = check_bytes(table).err();
    if refusal.is_some_and(|Refusal { number, .. }| !(7..=9).contains(&number)) {
        return None;
    }
    let rows = rows_of_bytes(table).ok()?;
    let layout = check_limits(&rows).ok()?;
    let search = Search {
        rows: &rows,
        layout: &layout,
        rule,
    };
    Some(search.comparisons())
}

/// Whether a table has a clash under one rule and none under another.
pub fn differs(table: &[u8], clashing: Rule, other: Rule) -> bool {
    let some = clashes(table, clashing).is_some_and(|clashes| !clashes.is_empty());
    some && clashes(table, other).is_some_and(|clashes| clashes.is_empty())
}

/// The cells changed, the cells used, the elements input from and those output to.
type Sets = [BTreeSet<usize>; 4];
const CHANGED: usize = 0;
const USED: usize = 1;
const INPUT_FROM: usize = 2;
const OUTPUT_TO: usize = 3;

/// A search of a table's rows under a rule.
struct Search<'a> {
    rows: &'a [Row],
    layout: &'a Layout,
    rule: Rule,
}

impl Search<'_> {
    /// The comparisons of all PARs.
    fn comparisons(&self) -> Comparisons {
        let pars = (0..self.rows.len()).filter(|&row| self.rows[row].kind == PAR);
        pars.flat_map(|par| self.comparisons_in(par)).collect()
    }

    /// The comparisons of one PAR: each pair of its components once in each sort.
    fn comparisons_in(&self, par: usize) -> Comparisons {
        let components = self.components(par);
        let mut found = Comparisons::new();
        for (second, other) in components.iter().enumerate() {
            for (first, one) in components[..second].iter().enumerate() {
                let meet =
                    |of_one: usize, of_other: usize| !one[of_one].is_disjoint(&other[of_other]);
                let sorts = [
                    (7, meet(CHANGED, USED) || meet(USED, CHANGED)),
                    (8, meet(INPUT_FROM, INPUT_FROM)),
                    (9, meet(OUTPUT_TO, OUTPUT_TO)),
                ];
                let par = par as u32;
                found.extend(sorts.map(|(sort, clash)| ((sort, par, first, second), clash)));
            }
        }
        found
    }

    /// What each component of a PAR does: "its members' processes with all beneath them".
    fn components(&self, par: usize) -> Vec<Sets> {
        let mut components = Vec::new();
        let mut next = self.rows[par].a;
        while let Ok(member) = usize::try_from(next) {
            let mut sets = Sets::default();
            self.gather(self.rows[member].a as usize, &mut sets);
            components.push(sets);
            next = self.rows[member].b;
        }
        components
    }

    /// Adds what a row does with all beneath it.
    fn gather(&self, row: usize, sets: &mut Sets) {
        match self.rows[row].kind {
            ASSIGNMENT => self.changes(row, sets),
            ELEMENT => sets[USED].extend(self.numbers(row)),
            INPUT => {
                sets[INPUT_FROM].extend(self.numbers(row));
                self.changes(self.rows[row].c as usize, sets);
            }
            OUTPUT => sets[OUTPUT_TO].extend(self.numbers(row)),
            _ => {}
        }
        for beneath in rows_referred_to(&self.rows[row]) {
            self.gather(beneath, sets);
        }
    }

    /// Adds the cells that an assignment or an input's target changes: "It is used if it is changed".
    fn changes(&self, row: usize, sets: &mut Sets) {
        sets[CHANGED].extend(self.numbers(row));
        sets[USED].extend(self.numbers(row));
    }

    /// The numbers of the name in field a that count with the subscript in field b.
    fn numbers(&self, row: usize) -> Vec<usize> {
        let part = self.layout.by_row[self.rows[row].a as usize];
        let subscript = self.rows[row].b as usize;
        let constant = self.is_constant(subscript);
        let literal = self.rows[subscript].kind == LITERAL;
        let by_value = constant && (literal || self.rule != Rule::Literal);
        let value = by_value.then(|| self.value(subscript)).flatten();
        match self.rule {
            Rule::WithoutConstants if constant && !literal => return Vec::new(),
            Rule::WithoutAll if value.is_none() => return Vec::new(),
            _ => {}
        }
        let inside = |number: &usize| value.is_none_or(|value| value == *number as i64);
        let numbers = (0..part.length).filter(inside);
        numbers.map(|number| part.first + number).collect()
    }

    /// Whether an expression is made only of literals and operators.
    fn is_constant(&self, row: usize) -> bool {
        let Row { kind, a, b, c } = self.rows[row];
        match kind {
            LITERAL => true,
            MONADIC => a != GIVEN && self.is_constant(b as usize),
            DYADIC => self.is_constant(b as usize) && self.is_constant(c as usize),
            _ => false,
        }
    }

    /// The value of a constant, found in whole numbers; none if it has no value.
    fn value(&self, row: usize) -> Option<i64> {
        let Row { kind, a, b, c } = self.rows[row];
        let fitting = |number: i64| i32::try_from(number).ok().map(i64::from);
        let wrapped = |number: i64| Some(i64::from(number as i32));
        let truth = |holds: bool| Some(i64::from(holds));
        if kind == LITERAL {
            return Some(i64::from(a));
        }
        let left = self.value(b as usize)?;
        match (kind, a) {
            (MONADIC, 0) => return fitting(-left),
            (MONADIC, _) => return truth(left == 0),
            (_, 14) if left == 0 => return truth(false),
            (_, 15) if left != 0 => return truth(true),
            _ => {}
        }
        let right = self.value(c as usize)?;
        match a {
            0 => fitting(left + right),
            1 => fitting(left - right),
            2 => fitting(left * right),
            3 | 4 if right == 0 => None,
            3 => fitting(left / right),
            4 => Some(left % right),
            5 => wrapped(left + right),
            6 => wrapped(left - right),
            7 => wrapped(left * right),
            8 => truth(left == right),
            9 => truth(left != right),
            10 => truth(left < right),
            11 => truth(left <= right),
            12 => truth(left > right),
            13 => truth(left >= right),
            _ => truth(right != 0),
        }
    }
}
