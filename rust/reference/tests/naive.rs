//! A slow machine that follows the paper's words, beside the fast one: settling by its rules
//! until none applies, and a search for the other side of each communication.

mod common;
use common::stored_inputs;
use reference::generate::{generate, Aim};
use reference::kinds::{
    fields_of, Field, ALT, ASSIGNMENT, BLOCK, ELEMENT, FROM_HOST, GUARD, IF, INNER, INPUT, OUTPUT,
    PAR, SEQ, SKIP, TO_HOST, WHILE,
};
use reference::printing::split_input;
use reference::program::Program;
use reference::run::run;
use reference::sheet::{readings_of_bytes, Readings};
use reference::state::State;
use reference::steps::{ready_steps, take_step, Step};
use reference::values::{is_true, number_named, value, Reason};
use reference::{check_bytes, Outcome};

/// All rows reachable from a row by references, the row itself excluded.
fn beneath(program: &Program, row: usize) -> Vec<usize> {
    let mut found = Vec::new();
    let fields = fields_of(program.rows[row].kind).into_iter().flatten();
    for (field, number) in fields.zip(program.rows[row].fields()) {
        if matches!(field, Field::Refers(_) | Field::RefersOrNone(_)) && number >= 0 {
            found.push(number as usize);
            found.extend(beneath(program, number as usize));
        }
    }
    found
}

/// The processes of a list of members, choices or options.
fn processes(program: &Program, row: usize) -> Vec<usize> {
    program
        .list_of(row)
        .map(|link| program.rows[link].a as usize)
        .collect()
}

/// The cells, and the state of each row.
#[derive(Clone, PartialEq, Eq, Debug)]
struct Both {
    cells: Vec<Option<i32>>,
    states: Vec<u8>,
}

/// Starts a process: it is running, and a block's start unsets all cells of its variable.
fn start(program: &Program, both: &mut Both, process: usize) {
    both.states[process] = 1;
    if program.rows[process].kind == BLOCK {
        let variable = program.part_named_by(process);
        for number in 0..variable.length {
            both.cells[variable.first + number] = None;
        }
    }
}

/// Applies one settling rule to one running row, if one applies.
fn settle_once(program: &Program, both: &mut Both) -> bool {
    for row in 0..both.states.len() {
        let states = &mut both.states;
        if states[row] != 1 {
            continue;
        }
        let list = match program.rows[row].kind {
            SEQ | PAR | IF | ALT => processes(program, row),
            _ => Vec::new(),
        };
        let all_ended = list.iter().all(|&process| states[process] == 2);
        match program.rows[row].kind {
            SKIP => states[row] = 2,
            SEQ | PAR if all_ended => states[row] = 2,
            SEQ => {
                let live = list.iter().find(|&&process| states[process] != 2);
                match live {
                    Some(&process) if states[process] == 0 => start(program, both, process),
                    _ => continue,
                }
            }
            PAR => match list.iter().find(|&&process| states[process] == 0) {
                Some(&process) => start(program, both, process),
                None => continue,
            },
            IF | ALT if list.iter().any(|&process| states[process] == 2) => states[row] = 2,
            WHILE if states[program.rows[row].b as usize] == 2 => {
                for lower in beneath(program, row) {
                    states[lower] = 0;
                }
            }
            BLOCK if states[program.rows[row].b as usize] == 2 => states[row] = 2,
            BLOCK if states[program.rows[row].b as usize] == 0 => {
                start(program, both, program.rows[row].b as usize);
            }
            _ => continue,
        }
        return true;
    }
    false
}

/// Settles by the rules until none applies.
fn settle(program: &Program, both: &mut Both) {
    while settle_once(program, both) {}
}

/// The role of the channel that an input or output names.
fn role(program: &Program, row: usize) -> i32 {
    program.rows[program.rows[row].a as usize].b
}

/// Whether an input and its target have their values, and the channel element.
fn input_element(program: &Program, state: &State, row: usize) -> Result<usize, Reason> {
    let element = number_named(program, &state.cells, row)?;
    number_named(program, &state.cells, program.rows[row].c as usize)?;
    Ok(element)
}

/// Whether an output has what it passes, and the channel element: its expression's value, or an
/// element inside its array, set or not.
fn output_element(program: &Program, state: &State, row: usize) -> Result<usize, Reason> {
    let element = number_named(program, &state.cells, row)?;
    let expression = program.rows[row].c as usize;
    if program.rows[expression].kind == ELEMENT {
        number_named(program, &state.cells, expression)?;
    } else {
        value(program, &state.cells, expression)?;
    }
    Ok(element)
}

/// The running outputs on the same inner channel element as an input that would not stop.
fn partners(program: &Program, state: &State, input: usize) -> Vec<usize> {
    let element = input_element(program, state, input);
    (0..program.rows.len())
        .filter(|&row| program.rows[row].kind == OUTPUT && state.rows[row] == 1)
        .filter(|&row| role(program, row) == INNER && role(program, input) == INNER)
        .filter(|&row| output_element(program, state, row).is_ok_and(|at| Ok(at) == element))
        .collect()
}

/// How many ways an input that would not stop could now take place.
fn ways(program: &Program, readings: &Readings, state: &State, input: usize) -> usize {
    if role(program, input) == FROM_HOST {
        let channel = program.layout.host_number[program.rows[input].a as usize];
        return usize::from(state.places[channel] < readings.count());
    }
    partners(program, state, input).len()
}

/// How many ways an option could be taken; a missing value stops the ALT.
fn option_ways(
    program: &Program,
    readings: &Readings,
    state: &State,
    option: usize,
) -> Result<usize, Reason> {
    let guard = program.rows[option].c as usize;
    let (boolean, action) = match program.rows[guard].kind {
        GUARD => (Some(program.rows[guard].a), program.rows[guard].b as usize),
        _ => (None, guard),
    };
    if let Some(boolean) = boolean {
        if !is_true(program, &state.cells, boolean as usize)? {
            return Ok(0);
        }
    }
    if program.rows[action].kind == SKIP {
        return Ok(1);
    }
    input_element(program, state, action)?;
    Ok(ways(program, readings, state, action))
}

/// The rows of the ready steps of one running row.
fn ready_rows_of(
    program: &Program,
    readings: &Readings,
    state: &State,
    row: usize,
) -> Result<Vec<usize>, Reason> {
    let idle_beneath = beneath(program, row)
        .iter()
        .all(|&lower| state.rows[lower] == 0);
    Ok(match program.rows[row].kind {
        ASSIGNMENT => vec![row],
        WHILE if idle_beneath => vec![row],
        IF if idle_beneath => {
            for choice in program.list_of(row) {
                if is_true(program, &state.cells, program.rows[choice].c as usize)? {
                    return Ok(vec![row]);
                }
            }
            Vec::new()
        }
        INPUT => {
            input_element(program, state, row)?;
            vec![row; ways(program, readings, state, row)]
        }
        OUTPUT => {
            output_element(program, state, row)?;
            let name = program.rows[row].a as usize;
            let list = program.layout.host_number[name];
            let writes = role(program, row) == TO_HOST
                && state.lists[list].len() < program.rows[name].c as usize;
            vec![row; usize::from(writes)]
        }
        ALT if idle_beneath => {
            let mut rows = Vec::new();
            for option in program.list_of(row) {
                let ways = option_ways(program, readings, state, option)?;
                rows.extend(std::iter::repeat_n(option, ways));
            }
            rows
        }
        _ => Vec::new(),
    })
}

/// The rows of all ready steps, in order; a stop is in the row itself.
fn ready_rows(program: &Program, readings: &Readings, state: &State) -> Vec<usize> {
    let running = (0..program.rows.len()).filter(|&row| state.rows[row] == 1);
    let mut rows: Vec<usize> = running
        .flat_map(|row| ready_rows_of(program, readings, state, row).unwrap_or_else(|_| vec![row]))
        .collect();
    rows.sort_unstable();
    rows
}

/// What an output passes: its element, set or not, or its expression's value.
fn passed(program: &Program, cells: &[Option<i32>], output: usize) -> Option<i32> {
    let expression = program.rows[output].c as usize;
    match program.rows[expression].kind {
        ELEMENT => number_named(program, cells, expression).map_or(None, |cell| cells[cell]),
        _ => value(program, cells, expression).ok(),
    }
}

/// An input takes place: its target gets a reading or what the other side passes, which ends.
fn take_in(program: &Program, readings: &Readings, state: &State, both: &mut Both, input: usize) {
    let target = number_named(program, &state.cells, program.rows[input].c as usize);
    let target = target.expect("an input that takes place has its target");
    if role(program, input) == FROM_HOST {
        let channel = program.layout.host_number[program.rows[input].a as usize];
        both.cells[target] = readings.reading(state.places[channel], channel);
    }
    for output in partners(program, state, input) {
        both.cells[target] = passed(program, &state.cells, output);
        both.states[output] = 2;
    }
}

/// The cells and row states that a step leaves after settling.
fn after(program: &Program, readings: &Readings, state: &State, step: &Step) -> Both {
    let mut both = Both {
        cells: state.cells.clone(),
        states: state.rows.clone(),
    };
    let cells = &state.cells;
    let stopped = |reason: Reason| 10 + reason.number();
    match *step {
        Step::Assignment { row } => {
            let done = number_named(program, cells, row).and_then(|cell| {
                let value = value(program, cells, program.rows[row].c as usize)?;
                both.cells[cell] = Some(value);
                Ok(cell)
            });
            both.states[row] = done.map_or_else(stopped, |_| 2);
        }
        Step::Test { row } => match is_true(program, cells, program.rows[row].a as usize) {
            Ok(true) => start(program, &mut both, program.rows[row].b as usize),
            Ok(false) => both.states[row] = 2,
            Err(reason) => both.states[row] = stopped(reason),
        },
        Step::Choice { process, .. } => start(program, &mut both, process),
        Step::Input { row, .. } => {
            take_in(program, readings, state, &mut both, row);
            both.states[row] = 2;
        }
        Step::HostWrite { row, .. } => both.states[row] = 2,
        Step::Option {
            option, passing, ..
        } => {
            if passing.is_some() {
                let guard = &program.rows[program.rows[option].c as usize];
                let input = match guard.kind {
                    GUARD => guard.b as usize,
                    _ => program.rows[option].c as usize,
                };
                take_in(program, readings, state, &mut both, input);
            }
            start(program, &mut both, program.rows[option].a as usize);
        }
        Step::Stop { row, reason } => both.states[row] = stopped(reason),
    }
    settle(program, &mut both);
    both
}

/// The choice for a step of the order that is followed.
fn choice(seed: u64, taken: usize) -> u16 {
    (taken * 31 + seed as usize) as u16
}

/// The cells and row states of a state of the fast machine.
fn both(state: &State) -> Both {
    Both {
        cells: state.cells.clone(),
        states: state.rows.clone(),
    }
}

/// Follows one order of an input of the sheet runner with both machines, and runs it with every
/// budget on the way; tells how many steps it took, none if the input is refused.
fn follow(what: &str, seed: u64, input: &[u8], most: usize) -> Option<usize> {
    let (table, sheet) = split_input(input);
    let program = check_bytes(table).ok()?;
    let readings = readings_of_bytes(sheet, &program.layout.readings).ok()?;
    let mut state = State::start(&program);
    let mut started = Both {
        cells: vec![None; state.cells.len()],
        states: vec![0; program.rows.len()],
    };
    start(&program, &mut started, program.root);
    settle(&program, &mut started);
    assert_eq!(both(&state), started, "{what}");
    let mut ready = Vec::new();
    let choices: Vec<u16> = (0..most).map(|taken| choice(seed, taken)).collect();
    for taken in 0..most {
        ready_steps(&program, &readings, &state, &mut ready);
        let rows: Vec<usize> = ready.iter().map(Step::row).collect();
        assert_eq!(rows, ready_rows(&program, &readings, &state), "{what}");
        let end = run(&program, &readings, &choices, taken as u64, |_| {});
        assert_eq!(end.ready, rows.len(), "{what} after step {taken}");
        assert!(rows.windows(2).all(|two| two[0] < two[1]), "{what}");
        if ready.is_empty() {
            let outcome = reference::run::outcome_at_rest(&program, &state);
            assert_ne!(outcome, Outcome::Spent);
            return Some(taken);
        }
        let step = ready[usize::from(choices[taken]) % ready.len()];
        let slow = after(&program, &readings, &state, &step);
        take_step(&program, &readings, &mut state, step);
        assert_eq!(both(&state), slow, "{what} after step {taken}");
    }
    Some(most)
}

/// Follows an order of a generated input.
fn follow_generated(seed: u64, small: bool, most: usize) -> Option<usize> {
    let input = generate(seed, small, Some(Aim::Accepted)).bytes;
    follow(&format!("seed {seed}"), seed, &input, most)
}

#[test]
fn small_tables_step_as_the_slow_machine_does() {
    let steps = (0..1_500).filter_map(|seed| follow_generated(seed, true, 60));
    let steps: usize = steps.sum();
    assert!(steps > 4_000, "{steps}");
}

#[test]
fn larger_tables_step_as_the_slow_machine_does() {
    let steps = (0..250).filter_map(|seed| follow_generated(seed, false, 60));
    let steps: usize = steps.sum();
    assert!(steps > 1_500, "{steps}");
}

#[test]
fn stored_cases_step_as_the_slow_machine_does() {
    let mut steps = 0;
    for (file, input) in stored_inputs() {
        for seed in [0, 1] {
            steps += follow(&file, seed, &input, 51).unwrap_or(0);
        }
    }
    assert!(steps > 1_500, "{steps}");
}
