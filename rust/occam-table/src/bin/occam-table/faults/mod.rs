//! What is wrong at the place of a refusal, in plain words. The library's answer is the number
//! and the place; what is told here is looked up in the files, to help a person mend them.

mod blocks;
mod fields;
mod limits;
pub mod lines;
mod references;
mod usage;

use crate::code::Code;
use crate::program::Program;
use crate::text;
use occam_table::Refusal;

/// What a refused call was given.
pub struct Given<'a> {
    pub code: &'a Code,
    pub sheet: &'a [u8],
    pub budget: u64,
}

/// Words about the place of a refusal; none where nothing was found.
pub fn details(refusal: Refusal, given: &Given) -> Vec<String> {
    let place = refusal.place as usize;
    let bytes = &given.code.bytes;
    match refusal.number {
        2 => lines::of_table(bytes, place),
        3 if given.code.is_text => text::too_many_rows(bytes),
        3 => lines::too_many_rows(bytes),
        10 => lines::of_sheet(given.sheet, place, &given.code.program()),
        12 => text::of_the_grammar(bytes, place),
        13 => text::of_names(bytes, place),
        11 => vec![format!(
            "the budget is {}; at most 65536 steps are allowed",
            given.budget
        )],
        _ => of_rows(refusal.number, place, &given.code.program()),
    }
}

/// What to do about a refusal 14 at its place.
pub fn help_about_blocks(place: usize, given: &Given) -> &'static str {
    match given.code.is_text {
        true => blocks::HELP_OF_A_TEXT,
        false => blocks::help(&given.code.program(), place),
    }
}

/// Words about a refusal of rows.
fn of_rows(number: u8, place: usize, program: &Program) -> Vec<String> {
    if number == 5 && place == program.rows.len() {
        return references::no_root(program);
    }
    let Some(row) = program.rows.get(place) else {
        return Vec::new();
    };
    let found = match number {
        4 => fields::at_fault(program, place),
        5 => references::at_fault(program, place),
        6 => limits::passed(program, place),
        7..=9 => usage::clash(program, place, number),
        14 => blocks::at_fault(program, place),
        _ => Vec::new(),
    };
    let shown = match program.origin {
        Some(_) => program.shown(place),
        None => format!("row {place}, line {}: {row}", place + 2),
    };
    std::iter::once(shown).chain(found).collect()
}

#[cfg(test)]
mod tests {
    use super::{details, Given};
    use crate::code::Code;
    use occam_table::{Machine, Refusal};
    use reference::generate::{generate, Aim};

    /// The refusal of a generated input, and the words about its place.
    fn refused(seed: u64, aim: Aim, small: bool) -> Option<(Refusal, Vec<String>)> {
        let (table, sheet, choices, budget) = generate(seed, small, Some(aim)).parts();
        let lent = u32::try_from(budget).unwrap_or(u32::MAX);
        let mut machine = Machine::new();
        let refusal = machine.run_table(&table, &sheet, &choices, lent).err()?;
        let given = Given {
            code: &Code::new(table, false),
            sheet: &sheet,
            budget,
        };
        Some((refusal, details(refusal, &given)))
    }

    #[test]
    fn something_is_found_at_every_place() {
        let mut told = [0; 15];
        for seed in 0..1_200 {
            let aim = match seed % 12 {
                0 => Aim::Mutated,
                11 => Aim::Refusal(14),
                number => Aim::Refusal(number as u8 + 1),
            };
            if let Some((refusal, words)) = refused(seed, aim, aim != Aim::Refusal(3)) {
                told[usize::from(refusal.number)] += 1;
                let lacks = |word: &str| words.iter().any(|line| line.contains(word));
                let nothing_there = lacks("expected a root") || lacks("is missing");
                // The row or line as written, and at least one line about what is wrong there.
                let too_long = matches!(refusal.number, 2 | 10) && refusal.place == 0;
                let alone = refusal.number == 11 || too_long || nothing_there;
                let least = if alone { 1 } else { 2 };
                assert!(words.len() >= least, "{seed}: {refusal:?}, {words:?}");
            }
        }
        for number in (2..=11).chain([14]) {
            assert!(told[number] > 40, "{number} seldom told: {told:?}");
        }
    }
}
