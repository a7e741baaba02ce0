//! What may stand after the lines so far: at which level, and of what sort.

use super::sentences::{choice, declaration, means_declaration, option, process, Beneath};
use super::symbols::{count, Scanned, Symbol};

/// Most places that are listed.
const LISTED: usize = 3;

/// What a process is wanted for, and its line.
#[derive(Clone, Copy)]
enum Wanting {
    Text,
    While(usize),
    Choice(usize),
    Option(usize),
    Block(usize),
}

/// A list that further lines may go on with, and the line above it.
#[derive(Clone, Copy)]
enum List {
    Seq(usize),
    Par(usize),
    Choices(usize),
    Options(usize),
}

/// What may still stand at a level: a process that must come first, then further ones of a list.
#[derive(Clone, Copy)]
struct Level {
    wanted: Option<Wanting>,
    list: Option<List>,
}

/// What is wrong with a line: where it stands, or what it says.
#[derive(Debug, PartialEq, Eq)]
pub enum Wrong {
    Place(String),
    Saying(String),
}

/// The lines so far: what may stand at each level. Only at the last level a process may be wanted.
pub struct Outline {
    levels: Vec<Level>,
    /// How many lines were taken.
    lines: usize,
}

impl Outline {
    /// No line yet.
    pub fn new() -> Outline {
        let text = Level {
            wanted: Some(Wanting::Text),
            list: None,
        };
        Outline {
            levels: vec![text],
            lines: 0,
        }
    }

    /// Takes a line whose characters are right, or tells what is wrong with it here.
    pub fn take(&mut self, line: &Scanned<'_>) -> Result<(), Wrong> {
        let level = self.level(line.spaces).map_err(Wrong::Place)?;
        self.take_at(line, level).map_err(Wrong::Saying)?;
        self.lines += 1;
        Ok(())
    }

    /// Takes a line at a level where one may stand.
    fn take_at(&mut self, line: &Scanned<'_>, level: Level) -> Result<(), String> {
        let (symbols, depth) = (&line.symbols, line.spaces / 2);
        let number = self.lines + 1;
        match (level.wanted, level.list) {
            (Some(Wanting::Text), _) if means_declaration(symbols) => {
                declaration(symbols)?;
            }
            (None, Some(List::Choices(_))) => {
                choice(symbols)?;
                self.open_one(depth, Wanting::Choice(number));
            }
            (None, Some(List::Options(_))) => {
                option(symbols)?;
                self.open_one(depth, Wanting::Option(number));
            }
            (_, list) => self.take_process(symbols, depth, list)?,
        }
        Ok(())
    }

    /// What may stand after so many spaces, or why nothing may.
    fn level(&self, spaces: usize) -> Result<Level, String> {
        let (depth, last) = (spaces / 2, self.levels.len() - 1);
        let wanted = self.levels[last].wanted.is_some();
        let begins = format!("it begins with {}", count(spaces, "space"));
        match self.levels.get(depth) {
            Some(level) if wanted && depth == last => Ok(*level),
            Some(level) if !wanted && level.list.is_some() => Ok(*level),
            Some(_) if !wanted => Err(format!(
                "{begins}, where one process stands already; to have several put them beneath \
                 a SEQ or PAR"
            )),
            Some(_) => Err(format!("{begins}, but a process must come first")),
            None => Err(format!("{begins}, deeper than a line may stand here")),
        }
    }

    /// Takes a process at a level where this list may go on.
    fn take_process(
        &mut self,
        symbols: &[Symbol<'_>],
        depth: usize,
        list: Option<List>,
    ) -> Result<(), String> {
        let beneath = process(symbols)?;
        let number = self.lines + 1;
        let wanted = (beneath == Beneath::SameLevel).then_some(Wanting::Block(number));
        self.levels.truncate(depth);
        self.levels.push(Level { wanted, list });
        match beneath {
            Beneath::Nothing | Beneath::SameLevel => {}
            Beneath::Seq => self.open_list(List::Seq(number)),
            Beneath::Par => self.open_list(List::Par(number)),
            Beneath::Choices => self.open_list(List::Choices(number)),
            Beneath::Options => self.open_list(List::Options(number)),
            Beneath::Body => self.open_one(depth, Wanting::While(number)),
        }
        Ok(())
    }

    /// Opens a list beneath the last line.
    fn open_list(&mut self, list: List) {
        self.levels.push(Level {
            wanted: None,
            list: Some(list),
        });
    }

    /// Opens a level of one process beneath a line of this level.
    fn open_one(&mut self, depth: usize, wanting: Wanting) {
        self.levels.truncate(depth + 1);
        self.levels.push(Level {
            wanted: Some(wanting),
            list: None,
        });
    }

    /// What must come or may come next, in words.
    pub fn expected(&self) -> String {
        let last = self.levels.len() - 1;
        match self.levels[last].wanted {
            Some(Wanting::Text) => {
                "expected a declaration or the process of the text, with no space before it"
                    .to_string()
            }
            Some(wanting) => format!("expected {}", wanted_words(wanting, 2 * last)),
            None => self.expected_in_lists(),
        }
    }

    /// What may come next where no process must come.
    fn expected_in_lists(&self) -> String {
        let lists = self.levels.iter().enumerate().rev();
        let places = lists.filter_map(|(depth, level)| Some(list_words(level.list?, 2 * depth)));
        let mut places: Vec<String> = places.collect();
        if places.len() > LISTED {
            places.truncate(LISTED);
            places.push("a line further out".to_string());
        }
        places.push("the end of the text".to_string());
        format!("expected {}", places.join("; or "))
    }

    /// The process that is missing at the end of a text, if one is.
    pub fn missing(&self) -> Option<String> {
        let last = self.levels.len() - 1;
        let wanting = self.levels[last].wanted?;
        Some(wanted_words(wanting, 2 * last))
    }
}

/// A process that is wanted.
fn wanted_words(wanting: Wanting, spaces: usize) -> String {
    let of = match wanting {
        Wanting::Text => "the process of the text".to_string(),
        Wanting::While(line) => format!("the process of the WHILE in line {line}"),
        Wanting::Choice(line) => format!("the process of the choice in line {line}"),
        Wanting::Option(line) => format!("the process of the option in line {line}"),
        Wanting::Block(line) => {
            format!("the process of the block that line {line} opens, at the same level")
        }
    };
    format!("{of}, with {} before it", count(spaces, "space"))
}

/// A list that may go on.
fn list_words(list: List, spaces: usize) -> String {
    let (what, line) = match list {
        List::Seq(line) => ("a process of the SEQ", line),
        List::Par(line) => ("a process of the PAR", line),
        List::Choices(line) => ("a choice of the IF", line),
        List::Options(line) => ("an option of the ALT", line),
    };
    format!(
        "{what} in line {line}, with {} before it",
        count(spaces, "space")
    )
}

#[cfg(test)]
mod tests {
    use super::super::symbols::scan;
    use super::*;
    use occam_table::{read_text, Refusal};
    use reference::generate::occam::text_input;
    use reference::printing::split_input;

    /// A line of each sort: a process, a choice, an option.
    const LINES: [&str; 3] = ["SKIP", "1", "1&SKIP"];

    /// The line that may stand at a level, if one may.
    fn wanted(outline: &Outline, depth: usize) -> Option<&'static str> {
        let last = outline.levels.len() - 1;
        let must_come = outline.levels[last].wanted.is_some();
        let level = outline.levels.get(depth)?;
        match level.list {
            _ if must_come => (depth == last).then_some(LINES[0]),
            Some(List::Choices(_)) => Some(LINES[1]),
            Some(List::Options(_)) => Some(LINES[2]),
            Some(List::Seq(_) | List::Par(_)) => Some(LINES[0]),
            None => None,
        }
    }

    /// Whether the library takes these lines and one more.
    fn is_taken(before: &[u8], depth: usize, line: &str, number: usize) -> bool {
        let line = format!("{}{line}\n", "  ".repeat(depth));
        match read_text(&[before, line.as_bytes()].concat()) {
            Err(Refusal { number: 12, place }) => place as usize > number,
            _ => true,
        }
    }

    /// Compares what may stand after each line of a text with what the library takes there.
    fn compare(text: &[u8]) -> usize {
        let mut outline = Outline::new();
        let (mut before, mut number) = (0, 0);
        for line in text.split_inclusive(|&byte| byte == b'\n') {
            for depth in 0..=outline.levels.len() {
                let wanted = wanted(&outline, depth);
                for sort in LINES {
                    let taken = is_taken(&text[..before], depth, sort, number + 1);
                    let shown = String::from_utf8_lossy(&text[..before]);
                    assert_eq!(taken, wanted == Some(sort), "{shown}{depth} {sort}");
                }
            }
            assert_eq!(outline.take(&scan(line)), Ok(()));
            (before, number) = (before + line.len(), number + 1);
        }
        number
    }

    #[test]
    fn what_may_stand_is_what_the_library_takes() {
        let mut lines = 0;
        for seed in 0..400 {
            let (input, _) = text_input(seed, true);
            let (text, _) = split_input(&input);
            if read_text(text).is_ok() {
                lines += compare(text);
            }
        }
        assert!(lines > 1_500, "{lines} lines");
    }
}
