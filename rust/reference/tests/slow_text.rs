//! The reader of texts against a slow one: all short expressions and lines, and the place of 12.

mod common;

use common::slow_text::{cuts, expressions, says, unmended_line};
use common::{assert_enough, stored_texts, Tally};
use reference::generate::occam::{damaged_line, damaged_names, some_text};
use reference::generate::{generate, Aim};
use reference::kinds::{declaration_count, ASSIGNMENT, DYADIC, ELEMENT, LITERAL, MONADIC};
use reference::printing::split_input;
use reference::table::Row;
use reference::{check_bytes, read_text, Refusal};

/// Tells every string of at most so many pieces.
fn each_string(pieces: &[&str], most: usize, mut tell: impl FnMut(&str)) {
    let mut strings = vec![(String::new(), 0)];
    while let Some((string, count)) = strings.pop() {
        tell(&string);
        if count < most {
            strings.extend(
                pieces
                    .iter()
                    .map(|piece| (format!("{string}{piece}"), count + 1)),
            );
        }
    }
}

/// The tree of an expression's row, in the slow reader's form; `x` is the one name.
fn tree(rows: &[Row], row: i32) -> String {
    let Row { kind, a, b, c } = rows[row as usize];
    match kind {
        LITERAL => format!("10({a})"),
        ELEMENT => format!("11(x,{})", tree(rows, b)),
        MONADIC => format!("12({a},{})", tree(rows, b)),
        DYADIC => format!("13({a},{},{})", tree(rows, b), tree(rows, c)),
        _ => panic!("kind {kind} in an expression"),
    }
}

/// The tree that the reader finds of an expression; `None` if it is not of the grammar, nothing if
/// only a name is wrong.
fn read_tree(expression: &str) -> Option<String> {
    let text = format!("INT x:\nx:={expression}\n");
    match read_text(text.as_bytes()) {
        Ok(rows) => {
            let root = rows[declaration_count(&rows)];
            assert_eq!(root.kind, ASSIGNMENT);
            Some(tree(&rows, root.c))
        }
        Err(Refusal { number: 12, place }) => {
            assert_eq!(place, 2, "{text}");
            None
        }
        Err(refusal) => {
            assert_eq!((refusal.number, refusal.place), (13, 2), "{text}");
            Some(String::new())
        }
    }
}

/// Compares both readers on every expression of at most so many pieces; tells how many are of the
/// grammar. Each of these must have one derivation.
fn compare_expressions(pieces: &[&str], most: usize) -> usize {
    let mut readable = 0;
    each_string(pieces, most, |string| {
        // After `:=` an expression may begin with spaces, and no line ends with them.
        let cut = cuts(string.trim_start_matches(' '));
        let trees: Vec<String> = cut
            .iter()
            .flat_map(|symbols| expressions(symbols))
            .collect();
        let read = read_tree(string);
        assert_eq!(trees.is_empty(), read.is_none(), "{string:?}");
        assert!(trees.len() <= 1, "{string:?} is {trees:?}");
        if let Some(tree) = read {
            readable += 1;
            assert!(
                tree.is_empty() || trees[0] == tree,
                "{string:?} is {trees:?}, not {tree}"
            );
        }
    });
    readable
}

#[test]
fn short_expressions_of_characters() {
    let readable = compare_expressions(&["x", "1", "0", "-", "(", ")", " ", "+"], 6);
    assert!(readable > 1_000, "{readable}");
}

#[test]
fn short_expressions_of_words() {
    let pieces = ["x", "1", "-", "NOT", "AND", "OR", "GIVEN", " ", "(", ")"];
    let readable = compare_expressions(&pieces, 5);
    assert!(readable > 500, "{readable}");
    let pieces = [" x", " -1", " AND", " OR", " (", " )"];
    let readable = compare_expressions(&pieces, 7);
    assert!(readable > 200, "{readable}");
}

#[test]
fn short_expressions_of_signs() {
    let pieces = ["x", "1", "[", "]", "<", "=", ">", "-", " "];
    let readable = compare_expressions(&pieces, 6);
    assert!(readable > 500, "{readable}");
}

/// Whether the last line of a text is one that further lines could mend.
fn is_taken(text: &str) -> bool {
    let lines = text.lines().count();
    read_text(text.as_bytes()) != Err(Refusal::new(12, lines))
}

/// Compares both readers on every line of at most so many pieces, wherever a line can stand.
fn compare_lines(pieces: &[&str], most: usize) -> [usize; 4] {
    let mut taken = [0; 4];
    each_string(pieces, most, |line| {
        if line.starts_with(' ') || line.is_empty() {
            return;
        }
        let said = says(line);
        let process = said.leaf + said.members + said.choices + said.options + said.one;
        let expected = [
            (format!("{line}\n"), said.header + process),
            (format!("SEQ\n  {line}\n"), said.local + process),
            (format!("IF\n  {line}\n"), said.boolean),
            (format!("ALT\n  {line}\n"), said.guard),
        ];
        for (count, (text, derivations)) in taken.iter_mut().zip(expected) {
            assert!(derivations <= 1, "{text}");
            assert_eq!(is_taken(&text), derivations == 1, "{text}");
            *count += derivations;
        }
    });
    taken
}

#[test]
fn short_lines_of_processes_and_guards() {
    let pieces = ["c", "1", "SKIP", ":", "=", "?", "!", "&", " "];
    let taken = compare_lines(&pieces, 6);
    assert!(taken.iter().all(|&count| count > 50), "{taken:?}");
}

#[test]
fn short_lines_of_declarations() {
    let pieces = [
        "INT", "CHAN", "HOSTIN", "HOSTOUT", "[", "]", "1", "n", ":", " ",
    ];
    let taken = compare_lines(&pieces, 5);
    assert!(taken[0] > 10 && taken[1] > 3, "{taken:?}");
    let taken = compare_lines(&["INT", "CHAN", "[", "]", "-1", "n:", " "], 6);
    assert!(taken[0] > 50 && taken[1] > 20, "{taken:?}");
    let taken = compare_lines(&["HOSTIN ", "HOSTOUT ", "-1 ", "n", ":", " "], 6);
    assert!(taken[0] > 20, "{taken:?}");
}

#[test]
fn short_lines_of_constructions() {
    let pieces = [
        "SEQ", "PAR", "IF", "ALT", "WHILE", "STOP", "x", "-", "1", " ",
    ];
    let taken = compare_lines(&pieces, 5);
    assert!(taken[0] > 30 && taken[2] > 30, "{taken:?}");
}

/// Every text of at most so many lines, by levels: the place of 12 is the one found by search.
#[test]
fn short_texts_of_lines() {
    let lines = ["SKIP\n", "SEQ\n", "IF\n", "1\n", "WHILE 1\n", "INT x:\n"];
    let indented = |level: usize| lines.map(|line| format!("{}{line}", "  ".repeat(level)));
    let pieces: Vec<String> = (0..3).flat_map(indented).collect();
    let pieces: Vec<&str> = pieces.iter().map(String::as_str).collect();
    let mut whole = 0;
    each_string(&pieces, 4, |text| {
        let found = place_of_12(text.as_bytes());
        assert_eq!(found, unmended_line(text.as_bytes()), "{text}");
        whole += usize::from(found.is_none());
    });
    assert!(whole > 100, "{whole}");
}

/// The line of refusal 12 that the reader tells; `None` for a text.
fn place_of_12(text: &[u8]) -> Option<usize> {
    match read_text(text) {
        Err(Refusal { number: 12, place }) => Some(place as usize),
        _ => None,
    }
}

/// Some bytes of a text changed, which may or may not spoil it.
fn changed(text: &[u8], seed: u64) -> Vec<u8> {
    let mut bytes = text.to_vec();
    let mut number = seed;
    let mut below = |bound: usize| {
        number = number
            .wrapping_mul(6_364_136_223_846_793_005)
            .wrapping_add(1_442_695_040_888_963_407);
        (number >> 33) as usize % bound.max(1)
    };
    for _ in 0..1 + below(2) {
        let (at, usual) = (below(bytes.len()), b" -()[]:=?!&x10SI\n"[below(17)]);
        match below(5) {
            0 => bytes[at] = usual,
            1 => bytes.insert(at, usual),
            2 => {
                bytes.remove(at);
            }
            3 => bytes.splice(at..at, [b' ', b' ']).for_each(drop),
            _ => {
                let start = bytes[..at].iter().rposition(|&byte| byte == b'\n');
                bytes.drain(start.map_or(0, |start| start + 1)..=at);
            }
        }
        if bytes.is_empty() {
            break;
        }
    }
    bytes
}

#[test]
fn the_place_of_12_is_the_one_found_by_search() {
    let mut found = Tally::new();
    for seed in 0..700 {
        let input = generate(seed, true, Some(Aim::Accepted));
        let Ok(program) = check_bytes(split_input(&input.bytes).0) else {
            continue;
        };
        let good = some_text(&program.rows, seed);
        let texts = [
            changed(&good, seed),
            changed(&good, seed + 1_000_000),
            damaged_line(&program.rows, seed).0,
            damaged_names(&program.rows, seed).0,
            good,
        ];
        for text in texts.iter().filter(|text| text.len() <= 2_000) {
            let (place, shown) = (place_of_12(text), String::from_utf8_lossy(text));
            assert_eq!(place, unmended_line(text), "seed {seed}\n{shown}");
            let lines = text.iter().filter(|&&byte| byte == b'\n').count();
            let sort = match place {
                None => "a text",
                Some(1) => "first",
                Some(place) if place > lines => "missing",
                Some(_) => "inside",
            };
            *found.entry(sort).or_insert(0) += 1;
        }
    }
    let least = [
        ("a text", 1_000),
        ("first", 50),
        ("missing", 80),
        ("inside", 800),
    ];
    assert_enough(&found, &least);
}

#[test]
fn stored_texts_have_the_place_found_by_search() {
    let mut count = 0;
    for (file, input) in stored_texts() {
        let (text, _) = split_input(&input);
        if text.len() <= 1_000 {
            assert_eq!(place_of_12(text), unmended_line(text), "{file}");
            count += 1;
        }
    }
    assert!(count > 200, "{count}");
}
