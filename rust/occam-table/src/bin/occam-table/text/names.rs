//! Refusal 13: a name that is declared nowhere or again, used as what it is not, or bare.

use super::sentences::{declaration, parted, Declared, Sort};
use super::symbols::{scan, Symbol};
use crate::faults::lines::{line, shown};
use std::collections::HashMap;
use Symbol::{Mark, Name};

/// As what a name is used.
#[derive(Clone, Copy, PartialEq, Eq)]
enum Role {
    Variable,
    Input,
    Output,
}

/// The first declaration of each name, with its line.
type Declarations<'t> = HashMap<&'t str, (usize, Declared<'t>)>;

/// Words about the names of a line at fault.
pub fn at_fault(text: &[u8], number: usize) -> Vec<String> {
    let Some(line) = line(text, number) else {
        return Vec::new();
    };
    let declarations = declarations(text);
    let symbols = scan(line).symbols;
    let found = match declaration(&symbols) {
        Ok(declared) => declared_again(declared, number, &declarations)
            .into_iter()
            .collect(),
        Err(_) => wrong_uses(&symbols, &declarations),
    };
    std::iter::once(shown(number, line)).chain(found).collect()
}

/// The first declaration of each name of a text.
fn declarations(text: &[u8]) -> Declarations<'_> {
    let mut first = Declarations::new();
    let lines = text.split_inclusive(|&byte| byte == b'\n');
    for (at, line) in lines.enumerate() {
        if let Ok(declared) = declaration(&scan(line).symbols) {
            first.entry(declared.name).or_insert((at + 1, declared));
        }
    }
    first
}

/// Words about a name that is declared in this line again.
fn declared_again(
    declared: Declared<'_>,
    number: usize,
    declarations: &Declarations<'_>,
) -> Option<String> {
    let name = declared.name;
    let (line, _) = declarations.get(name).filter(|(line, _)| *line < number)?;
    Some(format!(
        "{name} is declared again; it is declared first in line {line}, and once in the whole text"
    ))
}

/// Words about each name of a line that is used wrongly.
fn wrong_uses(symbols: &[Symbol<'_>], declarations: &Declarations<'_>) -> Vec<String> {
    let subject = subject(symbols);
    let mut words = Vec::new();
    for (at, symbol) in symbols.iter().enumerate() {
        let Name(name) = *symbol else {
            continue;
        };
        let role = match subject {
            Some((place, role)) if place == at => role,
            _ => Role::Variable,
        };
        let bare = symbols.get(at + 1) != Some(&Mark("["));
        let wrong = match declarations.get(name) {
            None => Some(nowhere(name, declarations)),
            Some((line, declared)) => wrong_use(*line, declared, role, bare),
        };
        words.extend(wrong.filter(|wrong| !words.contains(wrong)));
    }
    words
}

/// The place of the name that an action is about, the first symbol or that after `&`, and its role.
fn subject(symbols: &[Symbol<'_>]) -> Option<(usize, Role)> {
    let (_, mark, _) = parted(symbols, &[":=", "?", "!"])?;
    let before = parted(symbols, &["&"]).map_or(0, |(boolean, _, _)| boolean.len() + 1);
    let role = match mark {
        ":=" => Role::Variable,
        "?" => Role::Input,
        _ => Role::Output,
    };
    Some((before, role))
}

/// Words about a use that does not fit its declaration, which stands in this line.
fn wrong_use(line: usize, declared: &Declared<'_>, role: Role, bare: bool) -> Option<String> {
    let Declared { name, sort, size } = *declared;
    let is = match sort {
        Sort::Variable => "a variable",
        Sort::Channel => "a channel",
        Sort::FromHost => "a HOSTIN, a channel from the readings",
        Sort::ToHost => "a HOSTOUT, a channel to the host",
    };
    let used = match (sort, role) {
        (Sort::Variable, Role::Variable) => None,
        (Sort::Channel, Role::Input | Role::Output) => None,
        (Sort::FromHost, Role::Input) | (Sort::ToHost, Role::Output) => None,
        (_, Role::Variable) => Some("used as a variable"),
        (_, Role::Input) => Some("used as a channel that is input from"),
        (_, Role::Output) => Some("used as a channel that is output to"),
    };
    match used {
        Some(used) => Some(format!("{name} is {used}, but it is {is} (line {line})")),
        None if bare && size > 1 => Some(format!(
            "{name} stands bare, but it is an array of {size} (line {line}); write it with a \
             subscript, as {name}[0]"
        )),
        None if bare && size != 1 => Some(format!(
            "{name} stands bare, but its size is {size} (line {line}); declare it with a size \
             from 1 to 64"
        )),
        None => None,
    }
}

/// Words about a name that is declared nowhere, with the nearest that is.
fn nowhere(name: &str, declarations: &Declarations<'_>) -> String {
    let each = declarations.iter();
    let near = each.map(|(other, (line, _))| (letters_apart(name, other), *line, *other));
    let nearest = near.min().filter(|(apart, _, other)| {
        let longer = name.len().max(other.len());
        *apart <= (longer / 3).max(1) && *apart < longer
    });
    match nearest {
        Some((_, line, other)) => {
            format!("{name} is declared nowhere; did you mean {other} (line {line})?")
        }
        None => format!("{name} is declared nowhere"),
    }
}

/// How far two names are apart; not at all if they differ in capitals only.
fn letters_apart(one: &str, other: &str) -> usize {
    match one.eq_ignore_ascii_case(other) {
        true => 0,
        false => distance(one, other),
    }
}

/// How many letters must be put in, taken out or changed to make one name of another.
fn distance(one: &str, other: &str) -> usize {
    let mut row: Vec<usize> = (0..=other.len()).collect();
    for (at, letter) in one.bytes().enumerate() {
        let mut before = row[0];
        row[0] = at + 1;
        for (place, other) in other.bytes().enumerate() {
            let changed = before + usize::from(letter != other);
            before = row[place + 1];
            row[place + 1] = changed.min(before + 1).min(row[place] + 1);
        }
    }
    row[other.len()]
}

#[cfg(test)]
mod tests {
    use super::*;

    #[test]
    fn distances() {
        for (one, other, letters) in [
            ("", "abc", 3),
            ("lime", "lime", 0),
            ("lime", "limes", 1),
            ("lmie", "lime", 2),
            ("Lime", "lime", 1),
        ] {
            assert_eq!(distance(one, other), letters, "{one} {other}");
            assert_eq!(distance(other, one), letters, "{other} {one}");
        }
    }

    fn told(text: &str, line: usize) -> String {
        at_fault(text.as_bytes(), line)[1..].join("\n")
    }

    #[test]
    fn names_at_fault() {
        for (text, line, word) in [
            (
                "INT sample:\nsampel := 1\n",
                2,
                "did you mean sample (line 1)?",
            ),
            ("INT x:\nX := 1\n", 2, "did you mean x (line 1)?\0"),
            ("INT x:\ny := 1\n", 2, "y is declared nowhere\0"),
            ("INT x:\nCHAN x:\nSKIP\n", 2, "declared first in line 1"),
            (
                "HOSTIN h:\nh ! 1\n",
                2,
                "h is used as a channel that is output to, but it is a HOSTIN",
            ),
            (
                "HOSTOUT 1 h:\nINT x:\nh ? x\n",
                3,
                "input from, but it is a HOSTOUT",
            ),
            (
                "CHAN c:\nc := 1\n",
                2,
                "used as a variable, but it is a channel (line 1)",
            ),
            (
                "INT x:\nx ? x\n",
                2,
                "x is used as a channel that is input from, but it is a variable",
            ),
            (
                "[2]INT a:\na := 1\n",
                2,
                "write it with a subscript, as a[0]",
            ),
            ("[0]INT a:\na := 1\n", 2, "its size is 0"),
            (
                "INT x:\nALT\n  x & c ? x\n    SKIP\n",
                3,
                "c is declared nowhere",
            ),
            (
                "CHAN c:\nINT x:\nALT\n  c & c ? x\n    SKIP\n",
                4,
                "c is used as a variable",
            ),
        ] {
            let wanted = word.trim_end_matches('\0');
            let told = told(text, line);
            assert!(told.contains(wanted), "{text}: {told}");
        }
        assert_eq!(told("INT x:\ny := y + z\n", 2).lines().count(), 2);
    }
}
