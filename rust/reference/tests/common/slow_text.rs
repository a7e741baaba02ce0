//! A slow reader of texts: every way to cut a line into symbols, every way to derive it by the
//! grammar, and every way to go on after a line. It knows nothing of row numbers.

/// A symbol: a word, a number or a sign, by its characters.
type Symbol<'t> = &'t str;

/// The words that are no names.
const WORDS: &str = " INT CHAN HOSTIN HOSTOUT SKIP STOP SEQ PAR IF WHILE ALT REM PLUS MINUS TIMES \
    AND OR NOT GIVEN TRUE FALSE FOR ";
/// The signs of the grammar.
const SIGNS: &str = " := <> <= >= : = < > [ ] ( ) + - * / ? ! & ";
/// The dyadic operators by their numbers.
const OPERATORS: [&str; 16] = [
    "+", "-", "*", "/", "REM", "PLUS", "MINUS", "TIMES", "=", "<>", "<", "<=", ">", ">=", "AND",
    "OR",
];

/// Whether a list of words has this one.
fn has(words: &str, word: &str) -> bool {
    !word.is_empty() && !word.contains(' ') && words.contains(&format!(" {word} "))
}

/// Whether these characters are letters, digits and underscores after a first letter.
fn is_word(text: &str) -> bool {
    let inside = |each: char| each.is_ascii_alphanumeric() || each == '_';
    text.starts_with(|first: char| first.is_ascii_alphabetic()) && text.chars().all(inside)
}

/// Whether these characters are a number that is printed so.
fn is_number(text: &str) -> bool {
    text.parse::<i32>()
        .is_ok_and(|value| value.to_string() == text)
}

/// Whether these characters are a name.
fn is_name(text: &str) -> bool {
    is_word(text) && text.len() <= 31 && !has(WORDS, text)
}

/// Whether these characters are a symbol.
fn is_symbol(text: &str) -> bool {
    is_name(text) || is_number(text) || has(WORDS, text) || has(SIGNS, text)
}

/// Whether two symbols may stand so with nothing between: spaces must part words and numbers, and a
/// minus sign directly before a digit belongs to the number.
fn may_touch(left: Symbol, right: Symbol) -> bool {
    let solid = |text: &str| is_word(text) || is_number(text);
    let digit = right.starts_with(|first: char| first.is_ascii_digit());
    let both_solid = solid(left) && solid(right);
    let of_the_number = left == "-" && digit;
    !both_solid && !of_the_number
}

/// Every way to cut a line without its indentation into symbols.
pub fn cuts(body: &str) -> Vec<Vec<Symbol<'_>>> {
    let mut found = Vec::new();
    let mut begun: Vec<(Vec<Symbol>, &str)> = vec![(Vec::new(), body)];
    while let Some((symbols, rest)) = begun.pop() {
        if rest.is_empty() {
            found.push(symbols);
            continue;
        }
        let from_symbol = rest.trim_start_matches(' ');
        let spaced = from_symbol.len() < rest.len();
        for length in (1..=from_symbol.len()).filter(|&at| from_symbol.is_char_boundary(at)) {
            let (symbol, after) = from_symbol.split_at(length);
            let fits = match symbols.last() {
                Some(left) => spaced || may_touch(left, symbol),
                None => !spaced,
            };
            if fits && is_symbol(symbol) {
                begun.push(([&symbols[..], &[symbol]].concat(), after));
            }
        }
    }
    found.retain(|symbols| !symbols.is_empty());
    found
}

/// Joins every left part with every right part.
fn pairs(left: &[String], right: &[String], join: impl Fn(&str, &str) -> String) -> Vec<String> {
    let mut joined = Vec::new();
    for one in left {
        joined.extend(right.iter().map(|other| join(one, other)));
    }
    joined
}

/// The trees of an element, one for each derivation.
pub fn elements(symbols: &[Symbol]) -> Vec<String> {
    match symbols {
        [name] if is_name(name) => vec![format!("11({name},10(0))")],
        [name, "[", inside @ .., "]"] if is_name(name) => {
            let subscripts = expressions(inside);
            let tree = |subscript: &String| format!("11({name},{subscript})");
            subscripts.iter().map(tree).collect()
        }
        _ => Vec::new(),
    }
}

/// The trees of an operand.
fn operands(symbols: &[Symbol]) -> Vec<String> {
    match symbols {
        [number] if is_number(number) => vec![format!("10({number})")],
        ["(", inside @ .., ")"] => expressions(inside),
        _ => elements(symbols),
    }
}

/// The trees of an expression.
pub fn expressions(symbols: &[Symbol]) -> Vec<String> {
    let mut found = operands(symbols);
    if let [first, rest @ ..] = symbols {
        let (number, beneath) = match *first {
            "-" => (0, operands(rest)),
            "NOT" => (1, operands(rest)),
            "GIVEN" => (2, elements(rest)),
            _ => (0, Vec::new()),
        };
        found.extend(beneath.iter().map(|tree| format!("12({number},{tree})")));
    }
    for (number, operator) in OPERATORS.iter().enumerate() {
        for at in (0..symbols.len()).filter(|&at| symbols[at] == *operator) {
            let (left, right) = (operands(&symbols[..at]), &symbols[at + 1..]);
            let right = match (left.is_empty(), *operator) {
                (true, _) => Vec::new(),
                (_, "AND" | "OR") => chains(number, right),
                _ => operands(right),
            };
            let join = |one: &str, other: &str| format!("13({number},{one},{other})");
            found.extend(pairs(&left, &right, join));
        }
    }
    found
}

/// The trees of what stands after an AND or OR: an operand, or one more link of the same chain.
fn chains(number: usize, symbols: &[Symbol]) -> Vec<String> {
    let mut found = operands(symbols);
    for at in (0..symbols.len()).filter(|&at| symbols[at] == OPERATORS[number]) {
        let left = operands(&symbols[..at]);
        if !left.is_empty() {
            let right = chains(number, &symbols[at + 1..]);
            let join = |one: &str, other: &str| format!("13({number},{one},{other})");
            found.extend(pairs(&left, &right, join));
        }
    }
    found
}

/// The derivations of an input: how many.
fn inputs(symbols: &[Symbol]) -> usize {
    around(symbols, "?", |left, right| {
        elements(left).len() * elements(right).len()
    })
}

/// The sum over each place of a sign of what is counted left and right of it.
fn around(symbols: &[Symbol], sign: &str, count: impl Fn(&[Symbol], &[Symbol]) -> usize) -> usize {
    let places = (0..symbols.len()).filter(|&at| symbols[at] == sign);
    places
        .map(|at| count(&symbols[..at], &symbols[at + 1..]))
        .sum()
}

/// How many derivations a line has, as each of what it can say.
#[derive(Clone, Copy, Debug, Default, PartialEq, Eq)]
pub struct Says {
    /// A declaration of any sort; of a variable.
    pub header: usize,
    pub local: usize,
    /// A process of one line; SEQ or PAR; IF; ALT; WHILE.
    pub leaf: usize,
    pub members: usize,
    pub choices: usize,
    pub options: usize,
    pub one: usize,
    /// A choice's boolean; an option's guard.
    pub boolean: usize,
    pub guard: usize,
}

/// What a line without its indentation can say.
pub fn says(body: &str) -> Says {
    let mut said = Says::default();
    for symbols in cuts(body) {
        let symbols = &symbols[..];
        let typed = match symbols {
            ["[", number, "]", rest @ ..] if is_number(number) => rest,
            _ => symbols,
        };
        said.local += usize::from(matches!(typed, ["INT", name, ":"] if is_name(name)));
        said.header += match typed {
            ["INT" | "CHAN", name, ":"] if is_name(name) => 1,
            _ => 0,
        };
        said.header += match symbols {
            ["HOSTIN", name, ":"] if is_name(name) => 1,
            ["HOSTOUT", number, name, ":"] if is_number(number) && is_name(name) => 1,
            _ => 0,
        };
        let assign =
            |left: &[Symbol], right: &[Symbol]| elements(left).len() * expressions(right).len();
        said.leaf += usize::from(matches!(symbols, ["SKIP"] | ["STOP"]));
        said.leaf += around(symbols, ":=", assign) + around(symbols, "!", assign);
        said.leaf += inputs(symbols);
        said.members += usize::from(matches!(symbols, ["SEQ"] | ["PAR"]));
        said.choices += usize::from(matches!(symbols, ["IF"]));
        said.options += usize::from(matches!(symbols, ["ALT"]));
        said.one += match symbols {
            ["WHILE", rest @ ..] => expressions(rest).len(),
            _ => 0,
        };
        said.boolean += expressions(symbols).len();
        said.guard += inputs(symbols);
        said.guard += around(symbols, "&", |left, right| {
            let waits = inputs(right) + usize::from(matches!(right, ["SKIP"]));
            expressions(left).len() * waits
        });
    }
    said
}

/// A line by its level, and what it can say.
type Lined = (usize, Says);

/// The line feeds part lines; `None` for a line that can stand nowhere.
pub fn lined(line: &[u8]) -> Option<Lined> {
    let line = std::str::from_utf8(line).ok()?;
    let body = line.trim_start_matches(' ');
    let spaces = line.len() - body.len();
    let said = says(body);
    (spaces % 2 == 0 && said != Says::default()).then_some((spaces / 2, said))
}

/// The places after a process that begins at this line and level.
fn process_ends(lines: &[Lined], at: usize, level: usize, is_root: bool) -> Vec<usize> {
    let Some((_, said)) = lines.get(at).filter(|(found, _)| *found == level) else {
        return Vec::new();
    };
    let mut ends = Vec::new();
    if said.leaf > 0 {
        ends.push(at + 1);
    }
    if said.one > 0 {
        ends.extend(process_ends(lines, at + 1, level + 1, false));
    }
    if said.local > 0 && !is_root {
        ends.extend(process_ends(lines, at + 1, level, false));
    }
    if said.members > 0 {
        let member = |at: usize| process_ends(lines, at, level + 1, false);
        ends.extend(many_ends(at + 1, member));
    }
    let branch = |at: usize, stands: fn(&Says) -> usize| match lines.get(at) {
        Some((found, said)) if *found == level + 1 && stands(said) > 0 => {
            process_ends(lines, at + 1, level + 2, false)
        }
        _ => Vec::new(),
    };
    if said.choices > 0 {
        ends.extend(many_ends(at + 1, |at| branch(at, |said| said.boolean)));
    }
    if said.options > 0 {
        ends.extend(many_ends(at + 1, |at| branch(at, |said| said.guard)));
    }
    ends
}

/// The places after zero or more things, of which each has these ends.
fn many_ends(at: usize, ends_of_one: impl Fn(usize) -> Vec<usize>) -> Vec<usize> {
    let mut found = vec![at];
    let mut next = 0;
    while next < found.len() {
        found.extend(ends_of_one(found[next]));
        next += 1;
    }
    found
}

/// Whether these lines are a text.
pub fn is_text(lines: &[Lined]) -> bool {
    let is_header = |(level, said): &Lined| *level == 0 && said.header > 0;
    let mut headers = 0;
    loop {
        if process_ends(lines, headers, 0, true).contains(&lines.len()) {
            return true;
        }
        match lines.get(headers) {
            Some(line) if is_header(line) => headers += 1,
            _ => return false,
        }
    }
}

/// Whether some further lines make a text of these: none, or one SKIP at some level.
fn can_go_on(lines: &[Lined]) -> bool {
    let deepest = lines.last().map_or(0, |(level, _)| level + 1);
    let with_skip = |level: usize| {
        let skip = (level, says("SKIP"));
        is_text(&[lines, &[skip]].concat())
    };
    is_text(lines) || (0..=deepest).any(with_skip)
}

/// The line of refusal 12 by search: the first line that no further lines could mend; `None` for a
/// text.
pub fn unmended_line(text: &[u8]) -> Option<usize> {
    let mut lines = Vec::new();
    let pieces = text.split_inclusive(|&byte| byte == b'\n');
    for (number, piece) in (1..).zip(pieces) {
        let Some(line) = piece.strip_suffix(b"\n").and_then(lined) else {
            return Some(number);
        };
        lines.push(line);
        if !can_go_on(&lines) {
            return Some(number);
        }
    }
    (!is_text(&lines)).then_some(lines.len() + 1)
}
