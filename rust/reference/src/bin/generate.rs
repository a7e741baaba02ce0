//! Writes generated inputs for the sheet runner, each with a line of flags beside it.

use reference::generate::occam::text_input;
use reference::generate::{generate, Aim};
use std::path::PathBuf;
use std::process::ExitCode;
use std::{fs, io};

const HELP: &str = "\
generate: writes inputs for the sheet runner, from a seed alone

  generate --seed S --count N --out DIR [--small] [--kind K | --text]

Writes DIR/000001.in and so on (a table, the line `=`, a sheet), and beside each
DIR/000001.args, one line of flags (--budget, --choices; often empty).

  --seed S    any number; the same seed gives the same files
  --count N   how many inputs
  --out DIR   where to write them (made if need be)
  --small     at most 40 rows, 1,000 bytes and 40 steps each
  --kind K    accepted, without-alt, shape, mutated, pairs, endless, or a refusal number 2 to 11
              or 14
              (without it: a mix, about half accepted)
  --text      occam texts in place of tables, with flags that run, check or read them
";

/// What the command line asks for.
struct Request {
    seed: u64,
    count: u64,
    out: PathBuf,
    small: bool,
    aim: Option<Aim>,
    text: bool,
}

fn main() -> ExitCode {
    let arguments: Vec<String> = std::env::args().skip(1).collect();
    if arguments.iter().any(|argument| argument == "--help") {
        print!("{HELP}");
        return ExitCode::SUCCESS;
    }
    let done = requested(&arguments).and_then(|request| {
        write_inputs(&request).map_err(|error| format!("{}: {error}", request.out.display()))
    });
    match done {
        Ok(()) => ExitCode::SUCCESS,
        Err(message) => {
            eprintln!("generate: {message}");
            ExitCode::from(2)
        }
    }
}

/// Reads the flags.
fn requested(arguments: &[String]) -> Result<Request, String> {
    let (mut seed, mut count, mut out) = (None, None, None);
    let (mut small, mut aim, mut text) = (false, None, false);
    let mut rest = arguments.iter();
    while let Some(flag) = rest.next() {
        let mut operand = || {
            rest.next()
                .ok_or_else(|| format!("{flag} needs a value (see --help)"))
        };
        match flag.as_str() {
            "--seed" => seed = Some(number(flag, operand()?)?),
            "--count" => count = Some(number(flag, operand()?)?),
            "--out" => out = Some(PathBuf::from(operand()?)),
            "--small" => small = true,
            "--text" => text = true,
            "--kind" => aim = Some(aim_named(operand()?)?),
            _ => return Err(format!("unknown flag {flag:?} (see --help)")),
        }
    }
    match (seed, count, out) {
        (Some(seed), Some(count), Some(out)) => Ok(Request {
            seed,
            count,
            out,
            small,
            aim,
            text,
        }),
        _ => Err("--seed, --count and --out are needed (see --help)".to_string()),
    }
}

/// Reads the number of a flag.
fn number(flag: &str, text: &str) -> Result<u64, String> {
    text.parse()
        .map_err(|_| format!("{flag} needs a number, not {text:?} (see --help)"))
}

/// The aim of this name.
fn aim_named(name: &str) -> Result<Aim, String> {
    match (name, name.parse()) {
        ("accepted", _) => Ok(Aim::Accepted),
        ("without-alt", _) => Ok(Aim::WithoutAlt),
        ("shape", _) => Ok(Aim::Shape),
        ("mutated", _) => Ok(Aim::Mutated),
        ("pairs", _) => Ok(Aim::Pairs),
        ("endless", _) => Ok(Aim::Endless),
        (_, Ok(number @ (2..=11 | 14))) => Ok(Aim::Refusal(number)),
        _ => Err(format!("no kind {name:?} (see --help)")),
    }
}

/// The bytes of a seed's input, and its flags.
fn input_of(request: &Request, seed: u64) -> (Vec<u8>, String) {
    if request.text {
        return text_input(seed, request.small);
    }
    let input = generate(seed, request.small, request.aim);
    let flags = input.flags();
    (input.bytes, flags)
}

/// Writes the inputs and their flags.
fn write_inputs(request: &Request) -> io::Result<()> {
    fs::create_dir_all(&request.out)?;
    for number in 1..=request.count {
        let seed = request.seed.wrapping_mul(1_000_003).wrapping_add(number);
        let (bytes, flags) = input_of(request, seed);
        let path = request.out.join(format!("{number:06}"));
        fs::write(path.with_extension("in"), bytes)?;
        fs::write(path.with_extension("args"), flags + "\n")?;
    }
    Ok(())
}
