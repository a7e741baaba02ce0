//! `run`: a run of a table or a text on a sheet, as the sheet runner prints it or aligned to be read.

use crate::aligned;
use crate::arguments::Arguments;
use crate::code::Code;
use crate::faults::Given;
use crate::input::{self, TEXT};
use crate::program::Program;
use crate::report::{refusal_words, Report};
use crate::sheet_lines;
use occam_table::{Machine, Refusal, Run, BUDGET};

/// A table or a text, a sheet, choices and a budget from the command line.
pub struct Asked {
    pub code: Code,
    pub sheet: Vec<u8>,
    pub names: String,
    pub choices: Vec<u16>,
    pub budget: u64,
}

impl Asked {
    /// Reads the files and flags that `run`, `ready`, `steps` and `orders` have in common.
    pub fn read(arguments: &Arguments, budget: u32) -> Result<Asked, String> {
        let choices = arguments.numbers("--choices")?;
        let budget = arguments.number("--budget")?.unwrap_or(u64::from(budget));
        let input = input::code_and_sheet(arguments)?;
        Ok(Asked {
            code: input.code,
            sheet: input.sheet,
            names: input.names,
            choices,
            budget,
        })
    }

    /// Runs on a machine with these choices and this budget.
    pub fn run_with<'m>(
        &self,
        machine: &'m mut Machine,
        choices: &[u16],
        budget: u64,
    ) -> Result<Run<'m>, Refusal> {
        let budget = u32::try_from(budget).unwrap_or(u32::MAX);
        self.code.run(machine, &self.sheet, choices, budget)
    }

    /// The rows, for words about them.
    pub fn program(&self) -> Program {
        self.code.program()
    }

    /// What was given, for words about a refusal.
    pub fn given(&self) -> Given<'_> {
        Given {
            code: &self.code,
            sheet: &self.sheet,
            budget: self.budget,
        }
    }

    /// The report of a refusal in plain words.
    pub fn refused(&self, refusal: Refusal) -> Report {
        Report::refused(refusal, &self.names, &self.given())
    }
}

/// The command.
pub fn command(words: &[String]) -> Result<Report, String> {
    let valued = ["--budget", "--choices"];
    let alone = ["--full", "--table", "--plain", TEXT];
    let arguments = Arguments::part("run", words, &valued, &alone)?;
    arguments.apart("--plain", "--table")?;
    let asked = Asked::read(&arguments, BUDGET)?;
    let (full, table) = (arguments.has("--full"), arguments.has("--table"));
    let mut machine = Machine::new();
    let run = match asked.run_with(&mut machine, &asked.choices, asked.budget) {
        Ok(run) => run,
        Err(refusal) if table => return Ok(asked.refused(refusal)),
        Err(refusal) if arguments.has("--plain") => return Ok(Report::refused_line(refusal)),
        Err(refusal) => return Ok(refused_line_and_words(refusal, &asked)),
    };
    let program = asked.program();
    Ok(Report::accepted(if table {
        aligned::page(&program, &run, full)
    } else if arguments.has("--plain") {
        sheet_lines::page(&program.by_rows(), &run, full)
    } else {
        sheet_lines::page(&program, &run, full)
    }))
}

/// The sheet runner's line of a refusal; the plain words go beside it.
fn refused_line_and_words(refusal: Refusal, asked: &Asked) -> Report {
    Report {
        aside: refusal_words(refusal, &asked.names, &asked.given()),
        ..Report::refused_line(refusal)
    }
}
