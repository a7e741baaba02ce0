//! A line of a text before it is spelled: its level, its symbols, and what may follow it.

/// What a line leaves open.
#[derive(Clone, Copy, Debug, PartialEq, Eq)]
pub enum Opens {
    /// A declaration before the process.
    Header,
    /// Nothing: a process that is one line.
    Nothing,
    /// Any number of lines one level deeper.
    Many,
    /// One process one level deeper: a WHILE, a choice, an option.
    One,
    /// One process at the same level: the declaration of a block.
    Block,
}

/// As what a line stands where it stands.
#[derive(Clone, Copy, Debug, PartialEq, Eq)]
pub enum Stands {
    /// As a declaration or a process.
    Process,
    Choice,
    Option,
}

/// A line with its symbols.
#[derive(Clone, Debug)]
pub struct WrittenLine {
    pub level: usize,
    pub tokens: Vec<String>,
    pub opens: Opens,
    pub stands: Stands,
    /// Whether a name in it is not in order.
    pub misnamed: bool,
}

impl WrittenLine {
    /// A line that stands as a process, without symbols.
    pub fn empty(level: usize, opens: Opens) -> WrittenLine {
        WrittenLine {
            level,
            tokens: Vec::new(),
            opens,
            stands: Stands::Process,
            misnamed: false,
        }
    }

    /// A line of these words before the process.
    fn header(words: &[&str]) -> WrittenLine {
        let mut line = WrittenLine::empty(0, Opens::Header);
        line.tokens = words.iter().map(|word| word.to_string()).collect();
        line
    }

    /// The declaration of a variable of this size.
    pub fn declaration(name: &str, size: i32) -> WrittenLine {
        match size {
            1 => WrittenLine::header(&["INT", name, ":"]),
            _ => WrittenLine::header(&["[", &size.to_string(), "]", "INT", name, ":"]),
        }
    }

    /// The declaration of a channel from the host.
    pub fn host_input(name: &str) -> WrittenLine {
        WrittenLine::header(&["HOSTIN", name, ":"])
    }

    /// The name that a declaration declares: the last symbol but one.
    pub fn name(&self) -> &str {
        &self.tokens[self.tokens.len() - 2]
    }

    /// The deepest level at which the next line may stand.
    pub fn deepest_next(&self) -> usize {
        match self.opens {
            Opens::Many | Opens::One => self.level + 1,
            Opens::Header | Opens::Nothing | Opens::Block => self.level,
        }
    }
}

/// How many lines are declarations before the process.
pub fn header_count(lines: &[WrittenLine]) -> usize {
    let is_header = |line: &&WrittenLine| line.opens == Opens::Header;
    lines.iter().take_while(is_header).count()
}
