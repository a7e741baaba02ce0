//! Words for a step.

use super::moves::{Move, Named, Taker};
use crate::program::Program;

/// The words for a step.
pub fn of_move(program: &Program, step: &Move) -> String {
    match step {
        Move::Stopped { row, reason } => format!(
            "{} stopped, reason {}: {reason}",
            row_words(program, *row),
            reason.number()
        ),
        Move::Assigned { row, cell, value } => format!(
            "{} set {} to {}",
            row_words(program, *row),
            named_words(program, *cell),
            value_words(*value)
        ),
        Move::Passed {
            output,
            element,
            taker,
            cell,
            value,
        } => format!(
            "{} passed {} on {} to {}",
            row_words(program, *output),
            message_words(*value),
            named_words(program, *element),
            taker_words(program, taker, *cell, *value)
        ),
        Move::Read {
            taker,
            channel,
            cell,
            value,
        } => read_words(program, taker, *channel, *cell, *value),
        Move::Wrote {
            row,
            channel,
            value,
        } => format!(
            "{} wrote {} to the host on {}",
            row_words(program, *row),
            message_words(*value),
            program.sort_and_name(*channel)
        ),
        Move::Tested { row, held } => tested_words(program, *row, *held),
        Move::Chose { row, choice } => match choice {
            Some(choice) => format!(
                "{} chose the choice in {} and started {}",
                row_words(program, *row),
                program.place(*choice),
                process_words(program, *choice)
            ),
            None => format!("{} chose", row_words(program, *row)),
        },
        Move::Took { alt, options } => format!(
            "{} took {}",
            row_words(program, *alt),
            options_words(program, options)
        ),
        Move::Unseen { loops } => unseen_words(program, loops),
    }
}

/// The words for variables whose values are gone because their blocks started.
pub fn of_unset(program: &Program, variables: &[usize]) -> String {
    let each = variables.iter();
    each.map(|&variable| {
        let name = program.sort_and_name(variable);
        format!("; {name} is unset, since its block started")
    })
    .collect()
}

/// A row and the name of its kind, or a line of a text.
pub fn row_words(program: &Program, row: usize) -> String {
    program.place_and_kind(row)
}

/// A cell or an element.
pub fn named_words(program: &Program, named: Named) -> String {
    program.part_words(named.declaration, named.number)
}

/// A value; none if it is not known.
fn value_words(value: Option<i32>) -> String {
    value.map_or("no value".to_string(), |z| z.to_string())
}

/// What passed on a channel: a value, or an absence.
fn message_words(message: Option<i32>) -> String {
    message.map_or("an absence".to_string(), |z| z.to_string())
}

/// What a message did to its cell, if it is known which; a value went `into` it.
fn cell_words(program: &Program, into: &str, cell: Option<Named>, message: Option<i32>) -> String {
    match (cell, message) {
        (Some(cell), Some(_)) => format!("{into} {}", named_words(program, cell)),
        (Some(cell), None) => format!(": {} is unset", named_words(program, cell)),
        (None, _) => String::new(),
    }
}

/// Who took a message, and into which cell.
fn taker_words(
    program: &Program,
    taker: &Taker,
    cell: Option<Named>,
    message: Option<i32>,
) -> String {
    let into = cell_words(program, ", into", cell, message);
    match taker {
        Taker::Input(row) => format!("{}{into}", row_words(program, *row)),
        Taker::Alt(alt, options) => format!(
            "{}, which took {}{into}",
            row_words(program, *alt),
            options_words(program, options)
        ),
    }
}

/// A host read.
fn read_words(
    program: &Program,
    taker: &Taker,
    channel: usize,
    cell: Option<Named>,
    value: Option<i32>,
) -> String {
    let what = match (cell, value) {
        (Some(_), Some(value)) => value.to_string(),
        (Some(_), None) => "an absent reading".to_string(),
        (None, _) => "a reading".to_string(),
    };
    let into = cell_words(program, " into", cell, value);
    let (who, option) = match taker {
        Taker::Input(row) => (*row, String::new()),
        Taker::Alt(alt, options) => (
            *alt,
            format!("took {} and ", options_words(program, options)),
        ),
    };
    let (who, channel) = (row_words(program, who), program.sort_and_name(channel));
    format!("{who} {option}read {what} from the host on {channel}{into}")
}

/// A WHILE test.
fn tested_words(program: &Program, row: usize, held: bool) -> String {
    let who = row_words(program, row);
    match held {
        true => {
            let body = program.rows[row].b() as usize;
            format!("{who} found its boolean true and started {}", {
                row_words(program, body)
            })
        }
        false => format!("{who} found its boolean false and ended"),
    }
}

/// The option taken, or those that it may have been.
fn options_words(program: &Program, options: &[usize]) -> String {
    let each = options.iter().map(|&option| program.place(option));
    let rows: Vec<String> = each.collect();
    match options {
        [option] => format!(
            "the option in {} and started {}",
            program.place(*option),
            process_words(program, *option)
        ),
        [] => "an option".to_string(),
        _ => format!("an option: {} (they look alike here)", rows.join(" or ")),
    }
}

/// The process of a choice or option.
fn process_words(program: &Program, link: usize) -> String {
    row_words(program, program.rows[link].a() as usize)
}

/// A step that left every state as it was.
fn unseen_words(program: &Program, loops: &[usize]) -> String {
    let rows: Vec<String> = loops.iter().map(|&row| row_words(program, row)).collect();
    match loops {
        [] => "the states do not show which row moved".to_string(),
        _ => format!(
            "{} found its boolean true; its body ended at once",
            rows.join(" or ")
        ),
    }
}
