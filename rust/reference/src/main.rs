//! The sheet runner of "A run on paper", with flags for comparing programs.

use reference::explore::explore;
use reference::number::read_number;
use reference::printing::{printed, printed_ready, printed_trace, split_input};
use reference::printing::{printed_pairs, printed_rows, printed_verdict};
use reference::text::{read_text_into, ROW_NUMBERS};
use reference::{Source, BUDGET_LIMIT, BUFFER_LENGTHS, TRACE_LENGTH};
use std::io::{self, Read, Write};
use std::process::ExitCode;
use std::str::FromStr;

const HELP: &str = "\
reference: checks and runs an occam table (document 01), from standard input

Standard input is a table up to the first line `=`, then a readings sheet.
With no flags it prints what the sheet runner of \"A run on paper\" prints.

  --budget N        budget in steps (default 65536; above that is refusal 11)
  --choices A,B,C   choices, each 0 to 65535 (default none)
  --lengths C,M,S,P,O,K,T
                    lengths of the lent buffers: cells, marks, row states, places, output
                    numbers, counts, output marks (default 256,256,1024,8,1024,8,1024)
  --numbers         the table part is rows lent as numbers: whole numbers parted by
                    commas or line feeds, no line of names, empty pieces passed over
  --text            the table part is an occam text (request 02)
  --read            only the table that the text is read to: its bytes, or
                    refused,NUMBER,PLACE,0 (12, 13 or 3)
  --room N          with --read the length of the list lent for the rows' numbers (default
                    4096; shorter is refusal 1)
  --full            after the paper's lines also: cell,ROW,I,V and mark,ROW,I,0|1 of
                    each cell; state,ROW,0,S of each row; place,CH,0,N of each role 1
                    channel; strip,CH,I,V and omark,CH,I,0|1 of each place of each role 2
                    channel's capacity; count,CH,0,N of each role 2 channel
  --ready           only how many steps are ready after the run: ready,N
  --trace           for each step of the run step,NUMBER,READY,ROW (its number from 1, how
                    many were ready, the row that orders the one taken), then ready,N
  --lists R,T       with --trace the lengths of the two further lent lists, of how many were
                    ready and of the rows taken (default 65536,65536)
  --check           the verdict alone: accepted,0,0,0 or refused,NUMBER,PLACE,0
                    (only the table is looked at)
  --pairs           with --check the count of pairs of components that the clash search compared:
                    accepted,COUNT or refused,NUMBER,PLACE,COUNT
  --explore MAX     looks at all orders of steps of any length, up to MAX points (a
                    point is a state and the steps taken to it), and prints one line:
                      agree,ORDERS,LENGTH,OUTCOME  every order comes to rest, all after
                            LENGTH steps, in one state; ORDERS is how many lists of steps
                            come to rest (at most 18446744073709551615 is told)
                      differ,LENGTH,OTHER,WHAT  two orders disagree: one rests after LENGTH
                            steps, another rests after OTHER steps (WHAT is length) or
                            rests after as many steps in another state (WHAT is state)
                      open,POINTS,DEPTH,WHY  not known: MAX points were seen (WHY is limit),
                            or some order never rests (WHY is loop: a state comes again);
                            DEPTH is the length of the longest order seen
                    or refused,NUMBER,PLACE,0; budget and choices play no part in it
  --help            this text
";

/// What the command line asks for.
struct Request {
    budget: u64,
    choices: Vec<u16>,
    lengths: [usize; 7],
    numbers: bool,
    text: bool,
    read: bool,
    room: usize,
    full: bool,
    ready: bool,
    trace: bool,
    lists: [usize; 2],
    check: bool,
    pairs: bool,
    explore: Option<usize>,
}

fn main() -> ExitCode {
    let arguments: Vec<String> = std::env::args().skip(1).collect();
    if arguments.iter().any(|argument| argument == "--help") {
        return print(HELP);
    }
    let text = requested(&arguments).and_then(|request| {
        let input = read_standard_input()?;
        respond(&request, &input)
    });
    match text {
        Ok(text) => print(&text),
        Err(message) => {
            eprintln!("reference: {message}");
            ExitCode::from(2)
        }
    }
}

/// Prints a text; fails if standard output cannot be written.
fn print(text: &str) -> ExitCode {
    match io::stdout().write_all(text.as_bytes()) {
        Ok(()) => ExitCode::SUCCESS,
        Err(_) => ExitCode::FAILURE,
    }
}

/// All bytes of standard input.
fn read_standard_input() -> Result<Vec<u8>, String> {
    let mut input = Vec::new();
    match io::stdin().read_to_end(&mut input) {
        Ok(_) => Ok(input),
        Err(error) => Err(format!("standard input: {error}")),
    }
}

/// Reads the flags.
fn requested(arguments: &[String]) -> Result<Request, String> {
    let mut request = Request {
        budget: BUDGET_LIMIT,
        choices: Vec::new(),
        lengths: BUFFER_LENGTHS,
        numbers: false,
        text: false,
        read: false,
        room: ROW_NUMBERS,
        full: false,
        ready: false,
        trace: false,
        lists: [TRACE_LENGTH; 2],
        check: false,
        pairs: false,
        explore: None,
    };
    let mut rest = arguments.iter();
    while let Some(flag) = rest.next() {
        let mut operand = || {
            rest.next()
                .ok_or_else(|| format!("{flag} needs a value (see --help)"))
        };
        match flag.as_str() {
            "--budget" => request.budget = one_number(flag, operand()?)?,
            "--choices" => request.choices = numbers(flag, operand()?)?,
            "--lengths" => {
                request.lengths = numbers(flag, operand()?)?
                    .try_into()
                    .map_err(|_| format!("{flag} needs seven numbers (see --help)"))?;
            }
            "--lists" => {
                request.lists = numbers(flag, operand()?)?
                    .try_into()
                    .map_err(|_| format!("{flag} needs two numbers (see --help)"))?;
            }
            "--explore" => request.explore = Some(one_number(flag, operand()?)?),
            "--numbers" => request.numbers = true,
            "--text" => request.text = true,
            "--read" => request.read = true,
            "--room" => request.room = one_number(flag, operand()?)?,
            "--full" => request.full = true,
            "--ready" => request.ready = true,
            "--trace" => request.trace = true,
            "--check" => request.check = true,
            "--pairs" => request.pairs = true,
            _ => return Err(format!("unknown flag {flag:?} (see --help)")),
        }
    }
    if request.pairs && !request.check {
        return Err("--pairs goes with --check (see --help)".to_string());
    }
    if request.numbers && (request.text || request.read) {
        return Err("--numbers and a text exclude each other (see --help)".to_string());
    }
    Ok(request)
}

/// Reads the one number of a flag.
fn one_number<N: FromStr>(flag: &str, text: &str) -> Result<N, String> {
    text.parse()
        .map_err(|_| format!("{flag} needs a number in range, not {text:?} (see --help)"))
}

/// Reads the numbers of a flag, joined by commas; no text is no numbers.
fn numbers<N: FromStr>(flag: &str, text: &str) -> Result<Vec<N>, String> {
    let pieces = text.split(',').filter(|_| !text.is_empty());
    pieces.map(|piece| one_number(flag, piece)).collect()
}

/// The text that answers a request on this input.
fn respond(request: &Request, input: &[u8]) -> Result<String, String> {
    let (table, sheet) = split_input(input);
    if request.read {
        return Ok(printed_rows(&read_text_into(table, request.room)));
    }
    if request.numbers {
        let numbers = lent_numbers(table)?;
        return Ok(answered(request, Source::Numbers(&numbers), sheet));
    }
    let source = match request.text {
        true => Source::Text(table),
        false => Source::Bytes(table),
    };
    Ok(answered(request, source, sheet))
}

/// The text of the verdict, of all orders, of the trace, or of the answer.
fn answered(request: &Request, source: Source, sheet: &[u8]) -> String {
    let (choices, budget) = (&request.choices, request.budget);
    let (lengths, lists) = (request.lengths, request.lists);
    if request.check {
        let checked = source.checked();
        return match request.pairs {
            true => printed_pairs(&checked),
            false => printed_verdict(&checked),
        };
    }
    if let Some(most_points) = request.explore {
        let verdict = source.checked().verdict;
        return match verdict.and_then(|program| explore(&program, sheet, most_points)) {
            Ok(finding) => format!("{finding}\n"),
            Err(refusal) => format!("{refusal}\n"),
        };
    }
    if request.trace {
        return printed_trace(&source.traced(sheet, choices, budget, lengths, lists));
    }
    let answer = source.answer(sheet, choices, budget, lengths);
    match request.ready {
        true => printed_ready(&answer),
        false => printed(&answer, request.full),
    }
}

/// Rows lent as numbers: whole numbers parted by commas or line feeds.
fn lent_numbers(table: &[u8]) -> Result<Vec<i32>, String> {
    let pieces = table.split(|byte| matches!(byte, b',' | b'\n'));
    let numbers = pieces.filter(|piece| !piece.is_empty());
    numbers
        .map(|piece| {
            let text = String::from_utf8_lossy(piece);
            read_number(piece).ok_or_else(|| format!("--numbers: {text:?} is no whole number"))
        })
        .collect()
}
