//! The sheets that are timed.

use crate::tree::{
    bytes, dyadic, raised, repeat, table, Expression, Name, Process, DIVIDE, LESS, PLUS, REMAINDER,
};
use reference::generate::occam::largest::{largest_read, largest_refused, Named};
use Expression::{At, Cell, Literal};
use Process::{Assign, AssignAt, If, Input, Output, Par, Seq, Skip, While};

/// A table and its readings.
pub struct Sheet {
    pub name: &'static str,
    pub table: Vec<u8>,
    pub readings: Vec<u8>,
}

/// The sheets whose runs are timed.
pub fn runs() -> Vec<Sheet> {
    vec![pipeline(), loops(), kiln(), sequence()]
}

/// Large tables, whose reading and checking are timed.
pub fn tables() -> Vec<Sheet> {
    let sheet = |name, table| Sheet {
        name,
        table,
        readings: b"\n".to_vec(),
    };
    vec![
        sheet("check: sum of literals", bytes(&sum())),
        sheet("check: assignments", bytes(&assignments())),
        sheet("check: one expression", bytes(&deep())),
        sheet("check: constant subscripts", constant_subscripts()),
    ]
}

/// Tables of PARs, whose checks with the count of pairs compared are timed.
pub fn pairs() -> Vec<Sheet> {
    let sheet = |name, declarations: &[[i32; 4]], root: &Process| Sheet {
        name,
        table: table(declarations, root),
        readings: b"\n".to_vec(),
    };
    vec![
        sheet("pairs: forty components", &[[1, 40, 0, 0]], &forty()),
        sheet("pairs: 511 components", &[], &skips(511)),
        sheet("pairs: 508 nested PARs", &[], &nested(507, skips(4), false)),
        sheet("pairs: 255 nested of two", &[], &nested(255, Skip, true)),
    ]
}

/// The largest texts, whose reading is timed.
pub fn texts() -> Vec<Named> {
    [largest_read(), largest_refused()].concat()
}

/// Eight processes in a row: a source, six relays and a sink, 1,500 values.
fn pipeline() -> Sheet {
    const VALUES: i32 = 1_500;
    let (channel, value, counter) = (0, 1, 2);
    let declarations = [[2, 7, 0, 0], [1, 8, 0, 0], [1, 8, 0, 0]];
    let process = |number: i32| {
        let (held, counter) = (Name(value, number), Name(counter, number));
        let take = || Input(Name(channel, number - 1), held);
        let pass = |expression| Output(Name(channel, number), expression);
        let body = match number {
            0 => vec![pass(Cell(counter))],
            7 => vec![take()],
            _ => vec![take(), pass(Cell(held))],
        };
        repeat(counter, VALUES, body)
    };
    Sheet {
        name: "pipeline of 8 processes",
        table: table(&declarations, &Par((0..8).map(process).collect())),
        readings: b"\n".to_vec(),
    }
}

/// 55 independent loops, each 500 times.
fn loops() -> Sheet {
    let declarations = [[1, 55, 0, 0]];
    let process = |number: i32| repeat(Name(0, number), 500, Vec::new());
    Sheet {
        name: "55 independent loops",
        table: table(&declarations, &Par((0..55).map(process).collect())),
        readings: b"\n".to_vec(),
    }
}

/// Eight kiln monitors: 128 readings each, a mean of the last four, an alarm below a limit.
fn kiln() -> Sheet {
    let mut declarations = vec![[2, 1, 1, 0]; 8];
    declarations.extend([[2, 1, 2, 128]; 8]);
    declarations.extend([[1, 4, 0, 0]; 8]);
    declarations.extend([[1, 8, 0, 0]; 4]);
    let readings = (0..128).map(|line: i32| {
        let value = |number: i32| (1_380 + (line * 37 + number * 53) % 140).to_string();
        (0..8).map(value).collect::<Vec<_>>().join(",") + "\n"
    });
    let readings: String = readings.collect();
    Sheet {
        name: "kiln sheet of 8 monitors",
        table: table(&declarations, &Par((0..8).map(monitor).collect())),
        readings: format!("0,1,2,3,4,5,6,7\n{readings}").into_bytes(),
    }
}

/// One kiln monitor: an array of the last four, then their mean if there are four.
fn monitor(number: i32) -> Process {
    let (window, reading) = (16 + number, Name(24, number));
    let (counter, index, sum) = (Name(25, number), Name(26, number), Name(27, number));
    let place = dyadic(REMAINDER, Cell(counter), Literal(4));
    let add = Assign(
        sum,
        dyadic(PLUS, Cell(sum), At(window, Box::new(Cell(index)))),
    );
    let mean = dyadic(DIVIDE, Cell(sum), Literal(4));
    let alarm = |value: i32| Output(Name(8 + number, 0), Literal(value));
    let judge = If(vec![
        (dyadic(LESS, mean, Literal(1_440)), alarm(1)),
        (Literal(1), alarm(0)),
    ]);
    let fill = |cell: i32| Assign(Name(window, cell), Literal(1_450));
    let body = vec![
        Input(Name(number, 0), reading),
        AssignAt(window, place, Cell(reading)),
        Assign(sum, Literal(0)),
        repeat(index, 4, vec![add]),
        judge,
    ];
    let mut all: Vec<Process> = (0..4).map(fill).collect();
    all.push(repeat(counter, 128, body));
    Seq(all)
}

/// One loop without a PAR, 16,000 times.
fn sequence() -> Sheet {
    let (counter, sum, last) = (Name(0, 0), Name(1, 0), Name(2, 0));
    let again = dyadic(LESS, Cell(counter), Literal(16_000));
    let body = Seq(vec![
        Assign(
            sum,
            dyadic(
                REMAINDER,
                dyadic(PLUS, Cell(sum), Cell(counter)),
                Literal(997),
            ),
        ),
        Assign(last, Cell(sum)),
        Assign(counter, raised(counter)),
    ]);
    let root = Seq(vec![
        Assign(counter, Literal(0)),
        Assign(sum, Literal(0)),
        While(again, Box::new(body)),
    ]);
    Sheet {
        name: "one sequential loop",
        table: table(&[[1, 1, 0, 0]; 3], &root),
        readings: b"\n".to_vec(),
    }
}

/// A PAR of 40 assignments x[i] := 1: the customers' case of request 03.
fn forty() -> Process {
    let assignment = |number| Assign(Name(0, number), Literal(1));
    Par((0..40).map(assignment).collect())
}

/// A PAR of so many SKIPs.
fn skips(count: usize) -> Process {
    Par((0..count).map(|_| Skip).collect())
}

/// So many PARs around a process, each with a SKIP beside the next or alone.
fn nested(count: usize, innermost: Process, beside: bool) -> Process {
    let around = |inner, _| match beside {
        true => Par(vec![Skip, inner]),
        false => Par(vec![inner]),
    };
    (0..count).fold(innermost, around)
}

const ROWS: usize = 1_024;

/// A SEQ of assignments `v[i] := v[i] + 1`, seven rows to each.
fn assignments() -> Vec<[i32; 4]> {
    let mut rows = vec![[1, 64, 0, 0], [30, 2, 0, 0]];
    while rows.len() + 7 <= ROWS {
        let row = rows.len() as i32;
        let next = if rows.len() + 14 <= ROWS { row + 7 } else { -1 };
        let place = row / 7 % 64;
        rows.extend([
            [40, row + 1, next, 0],
            [22, 0, row + 2, row + 3],
            [10, place, 0, 0],
            [13, 0, row + 4, row + 5],
            [11, 0, row + 6, 0],
            [10, 1, 0, 0],
            [10, place, 0, 0],
        ]);
    }
    rows
}

/// One assignment of an expression as deep as the table is long.
fn deep() -> Vec<[i32; 4]> {
    let mut rows = vec![[1, 1, 0, 0], [22, 0, 2, 3], [10, 0, 0, 0]];
    while rows.len() + 1 < ROWS {
        rows.push([12, 1, rows.len() as i32 + 1, 0]);
    }
    rows.push([10, 0, 0, 0]);
    rows
}

/// One assignment of a sum of the longest literals: the most bytes that an accepted table has.
fn sum() -> Vec<[i32; 4]> {
    let mut rows = vec![[1, 1, 0, 0], [22, 0, 2, 3], [10, 0, 0, 0]];
    while rows.len() + 2 < ROWS {
        let row = rows.len() as i32;
        rows.extend([[13, 5, row + 1, row + 2], [10, i32::MIN, 0, 0]]);
    }
    rows.push([10, i32::MIN, 0, 0]);
    rows
}

/// A PAR of 60 assignments, each to a variable of its own by a constant subscript, six operators deep.
fn constant_subscripts() -> Vec<u8> {
    let deeper = |inner, _| dyadic(PLUS, Literal(0), inner);
    let subscript = || (0..6).fold(Literal(1), deeper);
    let assignment = |variable| AssignAt(variable, subscript(), Literal(7));
    let root = Par((0..60).map(assignment).collect());
    table(&[[1, 2, 0, 0]; 60], &root)
}
