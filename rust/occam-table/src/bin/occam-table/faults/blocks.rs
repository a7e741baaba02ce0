//! Refusal 14: a block as root, a second block of a variable, or a name outside its block.

use crate::kinds::{ASSIGNMENT, BLOCK, ELEMENT};
use crate::program::Program;

/// Words about each fault of this sort in a row.
pub fn at_fault(program: &Program, index: usize) -> Vec<String> {
    let row = &program.rows[index];
    let mut words = Vec::new();
    if row.kind == BLOCK && index == program.declarations {
        words.push(
            "it is the root; expected another process, with the block beneath it".to_string(),
        );
    }
    let Some(block) = block_of(program, row.a()) else {
        return words;
    };
    let (name, its_block) = (
        program.sort_and_name(row.a() as usize),
        program.shown(block),
    );
    match row.kind {
        BLOCK if block != index => words.push(format!(
            "it is a second block of {name}; expected only that of {its_block}"
        )),
        ELEMENT | ASSIGNMENT if !program.beneath(block).contains(&index) => words.push(format!(
            "it names {name} outside its block; expected it beneath {its_block}"
        )),
        _ => {}
    }
    words
}

/// What to do about a line of a text at fault.
pub const HELP_OF_A_TEXT: &str =
    "use the name only in the process after its INT line, or declare it at the text's beginning";

/// What to do about a row at fault.
pub fn help(program: &Program, index: usize) -> &'static str {
    match program.rows.get(index).map(|row| row.kind) {
        Some(BLOCK) if index == program.declarations => {
            "put the block into a SEQ of one member, and let the SEQ be the root"
        }
        Some(BLOCK) => "leave the block out, or let it name another variable",
        _ => "move the row beneath the variable's block, or let it name another variable",
    }
}

/// The block of a variable: the lowest row of kind 35 that names it.
fn block_of(program: &Program, variable: i32) -> Option<usize> {
    let names = |&row: &usize| {
        let row = &program.rows[row];
        row.kind == BLOCK && row.a() == variable
    };
    (program.declarations..program.rows.len()).find(names)
}

#[cfg(test)]
mod tests {
    use super::{at_fault, help};
    use crate::program::Program;

    /// SEQ of a block of variable 0 around SKIP, and another process in row 6.
    fn beside(process: [i32; 4], further: &[[i32; 4]]) -> Program {
        let block = [
            [1, 1, 0, 0],
            [30, 2, 0, 0],
            [40, 3, 5, 0],
            [35, 0, 4, 0],
            [21, 0, 0, 0],
            [40, 6, -1, 0],
            process,
        ];
        Program::new(&[&block, further].concat())
    }

    #[test]
    fn a_root() {
        let program = Program::new(&[[1, 1, 0, 0], [35, 0, 2, 0], [21, 0, 0, 0]]);
        let words = at_fault(&program, 1);
        assert_eq!(
            words,
            ["it is the root; expected another process, with the block beneath it"]
        );
        assert!(help(&program, 1).starts_with("put the block into a SEQ"));
    }

    #[test]
    fn a_second_block() {
        let program = beside([35, 0, 7, 0], &[[21, 0, 0, 0]]);
        assert_eq!(
            at_fault(&program, 6),
            ["it is a second block of variable 0; expected only that of row 3: 35,0,4,0 (block)"]
        );
        assert!(at_fault(&program, 3).is_empty());
    }

    #[test]
    fn a_name_outside() {
        let program = beside([22, 0, 7, 8], &[[10, 0, 0, 0], [10, 1, 0, 0]]);
        assert_eq!(
            at_fault(&program, 6),
            ["it names variable 0 outside its block; expected it beneath row 3: 35,0,4,0 (block)"]
        );
    }
}
