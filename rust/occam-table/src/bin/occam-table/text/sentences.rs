//! What a line says by itself: a declaration, a process, a choice or an option, or what is wrong.

use super::phrases::{element, expression};
use super::symbols::{Symbol, WORDS};
use Symbol::{Mark, Name, Number};

/// What stands beneath the line of a process.
#[derive(Clone, Copy, Debug, PartialEq, Eq)]
pub enum Beneath {
    Nothing,
    Seq,
    Par,
    Choices,
    Options,
    /// One process.
    Body,
    /// One process at the same level: the line is that of a block.
    SameLevel,
}

/// The sort of a declaration.
#[derive(Clone, Copy, Debug, PartialEq, Eq)]
pub enum Sort {
    Variable,
    Channel,
    FromHost,
    ToHost,
}

/// A declaration: its name, sort and size.
#[derive(Clone, Copy, Debug, PartialEq, Eq)]
pub struct Declared<'t> {
    pub name: &'t str,
    pub sort: Sort,
    pub size: i64,
}

/// The words with which declarations begin.
const DECLARING: [&str; 4] = ["INT", "CHAN", "HOSTIN", "HOSTOUT"];

/// The forms of declarations.
const FORMS: &str = "INT x:  [8]INT a:  CHAN c:  [4]CHAN c:  HOSTIN lime:  HOSTOUT 24 panel:";

/// Whether a line means to be a declaration.
pub fn means_declaration(symbols: &[Symbol<'_>]) -> bool {
    match symbols {
        [Mark("["), ..] => true,
        [Mark(word), ..] => DECLARING.contains(word),
        _ => false,
    }
}

/// The declaration of a line, or what is wrong.
pub fn declaration<'t>(symbols: &[Symbol<'t>]) -> Result<Declared<'t>, String> {
    let (size, rest) = match symbols {
        [Mark("["), Number(size), Mark("]"), rest @ ..] => (Some(*size), rest),
        _ => (None, symbols),
    };
    let number = size.map_or(1, |size| size.parse().unwrap_or(0));
    let declared = |name, sort| {
        let size = number;
        Ok(Declared { name, sort, size })
    };
    match (size, rest) {
        (_, [Mark("INT"), Name(name), Mark(":")]) => declared(*name, Sort::Variable),
        (_, [Mark("CHAN"), Name(name), Mark(":")]) => declared(*name, Sort::Channel),
        (None, [Mark("HOSTIN"), Name(name), Mark(":")]) => declared(*name, Sort::FromHost),
        (None, [Mark("HOSTOUT"), Number(_), Name(name), Mark(":")]) => {
            declared(*name, Sort::ToHost)
        }
        _ => Err(wrong_declaration(size, rest)),
    }
}

/// What is wrong with a line that means to be a declaration.
fn wrong_declaration(size: Option<&str>, rest: &[Symbol<'_>]) -> String {
    let why = match rest {
        [Mark("HOSTIN" | "HOSTOUT"), ..] if size.is_some() => {
            "a host channel has no size".to_string()
        }
        [Mark("HOSTOUT"), Name(_), ..] => "HOSTOUT needs its capacity before the name".to_string(),
        [Mark(_), Mark(word), ..] if WORDS.contains(word) => {
            format!("{word} is a word of the grammar and no name")
        }
        [.., last] if *last != Mark(":") => "a declaration ends with a colon".to_string(),
        _ => "it is no declaration".to_string(),
    };
    format!("{why}; declarations are written {FORMS}")
}

/// What stands beneath the process of a line, or what is wrong.
pub fn process(symbols: &[Symbol<'_>]) -> Result<Beneath, String> {
    match symbols {
        [Mark("SKIP" | "STOP")] => Ok(Beneath::Nothing),
        [Mark("SEQ")] => Ok(Beneath::Seq),
        [Mark("PAR")] => Ok(Beneath::Par),
        [Mark("IF")] => Ok(Beneath::Choices),
        [Mark("ALT")] => Ok(Beneath::Options),
        [Mark("SEQ" | "PAR"), .., Mark("FOR"), _] => {
            Err("a replicator is not read: write each process out".to_string())
        }
        [Mark(word @ ("SKIP" | "STOP" | "SEQ" | "PAR" | "IF" | "ALT")), ..] => {
            Err(format!("{word} stands alone in its line"))
        }
        [Mark("WHILE")] => Err("after WHILE comes its boolean".to_string()),
        [Mark("WHILE"), boolean @ ..] => expression(boolean).map(|()| Beneath::Body),
        _ if means_declaration(symbols) => block(symbols),
        _ => action(symbols).map(|()| Beneath::Nothing),
    }
}

/// What stands beneath the line of a block, or what is wrong.
fn block(symbols: &[Symbol<'_>]) -> Result<Beneath, String> {
    match declaration(symbols)?.sort {
        Sort::Variable => Ok(Beneath::SameLevel),
        _ => Err(
            "a channel is declared at the text's beginning; inside only INT may stand".to_string(),
        ),
    }
}

/// That a line is an assignment, an input or an output, or what is wrong.
fn action(symbols: &[Symbol<'_>]) -> Result<(), String> {
    if symbols.contains(&Mark("&")) {
        return Err("a guard with & stands only beneath ALT".to_string());
    }
    let Some((subject, mark, object)) = parted(symbols, &[":=", "?", "!"]) else {
        return Err(no_action(symbols));
    };
    match mark {
        ":=" => {
            element(subject, "a variable before :=")?;
            expression(object)
        }
        "!" => {
            element(subject, "a channel before !")?;
            expression(object)
        }
        _ => input(subject, object),
    }
}

/// That symbols are the channel and the target of an input, or what is wrong.
fn input(channel: &[Symbol<'_>], target: &[Symbol<'_>]) -> Result<(), String> {
    element(channel, "a channel before ?")?;
    element(target, "a variable after ?")
}

/// What is wrong with a line that is no process.
fn no_action(symbols: &[Symbol<'_>]) -> String {
    let capitals = match symbols {
        [Name(name), ..] => name.to_uppercase(),
        _ => String::new(),
    };
    if WORDS.contains(&capitals.as_str()) {
        return format!("the words of the grammar have capitals: write {capitals}");
    }
    if symbols.contains(&Mark("=")) {
        return "= compares; to set a variable write :=".to_string();
    }
    match expression(symbols) {
        Ok(()) => "it is an expression; a process is expected here".to_string(),
        Err(_) => {
            "it is no process; expected SKIP, STOP, x := e, c ? x, c ! e, SEQ, PAR, IF, ALT, WHILE \
                   or the INT line of a block"
                .to_string()
        }
    }
}

/// That a line is a choice, a boolean, or what is wrong.
pub fn choice(symbols: &[Symbol<'_>]) -> Result<(), String> {
    expression(symbols).map_err(|why| match process(symbols) {
        Ok(_) => "it is a process; beneath IF come choices: a line with a boolean, and beneath \
                  it a process"
            .to_string(),
        Err(_) => why,
    })
}

/// That a line is an option's guard, or what is wrong.
pub fn option(symbols: &[Symbol<'_>]) -> Result<(), String> {
    let Some((boolean, _, waits)) = parted(symbols, &["&"]) else {
        return match parted(symbols, &["?"]) {
            Some((channel, _, target)) => input(channel, target),
            None => Err(
                "beneath ALT come options: c ? x, e & c ? x or e & SKIP, and beneath \
                         each a process"
                    .to_string(),
            ),
        };
    };
    expression(boolean)?;
    match (waits, parted(waits, &["?"])) {
        ([Mark("SKIP")], _) => Ok(()),
        (_, Some((channel, _, target))) => input(channel, target),
        (_, None) => Err("after & comes an input c ? x, or SKIP".to_string()),
    }
}

/// The symbols before and after the first of these marks, and the mark.
pub fn parted<'a, 't>(
    symbols: &'a [Symbol<'t>],
    marks: &[&str],
) -> Option<(&'a [Symbol<'t>], &'t str, &'a [Symbol<'t>])> {
    let found = |(at, symbol): (usize, &Symbol<'t>)| match symbol {
        Mark(mark) if marks.contains(mark) => Some((at, *mark)),
        _ => None,
    };
    let (at, mark) = symbols.iter().enumerate().find_map(found)?;
    Some((&symbols[..at], mark, &symbols[at + 1..]))
}
