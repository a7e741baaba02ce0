//! Sheets of any size: what each further part of a sheet costs a step, and the largest of them.

use crate::sheets::Sheet;
use crate::tree::{table, Expression, Guard, Name, Process};
use Expression::Literal;
use Process::{Alt, Assign, If, Input, Output, Par, Seq, Skip, While};

/// A part of which a sheet can have any number.
pub struct Growth {
    /// The part.
    pub name: &'static str,
    /// How many the two sheets have that are compared.
    pub numbers: [i32; 2],
    /// How many steps both take, at least.
    pub steps: u32,
    /// The sheet with so many.
    pub sheet: fn(i32) -> Sheet,
}

/// The parts whose cost is counted.
pub fn parts() -> Vec<Growth> {
    let part = |name, sheet| Growth {
        name,
        numbers: [4, 60],
        steps: 2_000,
        sheet,
    };
    vec![
        part("waiting input", waiting_inputs),
        part("waiting output", waiting_outputs),
        part("waiting ALT", waiting_alts),
        part("option of a waiting ALT, an input", options_of_inputs),
        part("option of a waiting ALT, a boolean", options_of_booleans),
        part("row never reached under a loop", never_reached),
        part("choice never looked at", never_looked_at),
        part("member of a PAR in a loop", members),
        Growth {
            steps: 512,
            ..part("declaration, at a host write", declarations)
        },
        part("level of SEQ in a loop's body", levels_of_seq),
        part("level of PAR in a loop's body", levels_of_par),
    ]
}

/// Sheets as large as a table can be of one part, with a loop that never ends.
pub fn largest() -> Vec<Sheet> {
    let named = |name, sheet: Sheet| Sheet { name, ..sheet };
    vec![
        named("508 nested SEQs in a loop", levels_of_seq(508)),
        named("IF of 339 in a loop", never_looked_at(338)),
        named("ALT of 200 beside a loop", options_of_booleans(200)),
    ]
}

/// A table of one row.
pub fn smallest() -> Sheet {
    sheet(&[], Skip)
}

/// The sheet of these declarations and this root, without readings.
fn sheet(declarations: &[[i32; 4]], root: Process) -> Sheet {
    Sheet {
        name: "",
        table: table(declarations, &root),
        readings: b"\n".to_vec(),
    }
}

/// A loop around a process that never ends by itself.
fn forever(body: Process) -> Process {
    While(Literal(1), Box::new(body))
}

/// x := 1 for the only cell of the variable in row 0.
fn assignment() -> Process {
    Assign(Name(0, 0), Literal(1))
}

/// A loop beside processes that wait on channel row 1 or set cells of variable row 2.
fn beside_a_loop(mut waiting: Vec<Process>) -> Sheet {
    waiting.push(forever(assignment()));
    sheet(&[[1, 1, 0, 0], [2, 64, 0, 0], [1, 64, 0, 0]], Par(waiting))
}

/// An input that nobody outputs to.
fn input_of(number: i32) -> (Name, Name) {
    (Name(1, number), Name(2, number))
}

fn waiting_inputs(count: i32) -> Sheet {
    let input = |number| {
        let (channel, target) = input_of(number);
        Input(channel, target)
    };
    beside_a_loop((0..count).map(input).collect())
}

fn waiting_outputs(count: i32) -> Sheet {
    let output = |number| Output(Name(1, number), Literal(1));
    beside_a_loop((0..count).map(output).collect())
}

fn waiting_alts(count: i32) -> Sheet {
    let alt = |number| {
        let (channel, target) = input_of(number);
        Alt(vec![Guard::Input(channel, target)])
    };
    beside_a_loop((0..count).map(alt).collect())
}

fn options_of_inputs(count: i32) -> Sheet {
    let guard = |number| {
        let (channel, target) = input_of(number);
        Guard::Input(channel, target)
    };
    beside_a_loop(vec![Alt((0..count).map(guard).collect())])
}

fn options_of_booleans(count: i32) -> Sheet {
    beside_a_loop(vec![Alt((0..count).map(|_| Guard::Skip(0)).collect())])
}

/// A loop whose IF never takes its second choice, in which so many SKIPs stand.
fn never_reached(count: i32) -> Sheet {
    let never = Seq((0..count).map(|_| Skip).collect());
    let choices = vec![(Literal(1), assignment()), (Literal(0), never)];
    sheet(&[[1, 1, 0, 0]], forever(If(choices)))
}

/// A loop whose IF takes its first choice and has so many more.
fn never_looked_at(count: i32) -> Sheet {
    let mut choices = vec![(Literal(1), Skip)];
    choices.extend((0..count).map(|_| (Literal(0), Skip)));
    sheet(&[], forever(If(choices)))
}

fn members(count: i32) -> Sheet {
    let member = |number| Assign(Name(0, number), Literal(1));
    sheet(
        &[[1, 64, 0, 0]],
        forever(Par((0..count).map(member).collect())),
    )
}

/// A loop that writes to the host, behind so many variables.
fn declarations(count: i32) -> Sheet {
    let mut declared = vec![[1, 1, 0, 0]; count as usize];
    declared.push([2, 1, 2, 256]);
    sheet(&declared, forever(Output(Name(count, 0), Literal(1))))
}

fn levels_of_seq(count: i32) -> Sheet {
    levels(count, Seq)
}

fn levels_of_par(count: i32) -> Sheet {
    levels(count, Par)
}

/// A loop around so many levels of SEQ or PAR with one member each.
fn levels(count: i32, level: fn(Vec<Process>) -> Process) -> Sheet {
    let body = (0..count).fold(assignment(), |inner, _| level(vec![inner]));
    sheet(&[[1, 1, 0, 0]], forever(body))
}
