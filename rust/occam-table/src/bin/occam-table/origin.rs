//! Where the rows of a text came from: the line of each, and the names of its declarations.
//!
//! A text has no blank line and no comment, so that its lines follow from its rows: the
//! declarations come first, one a line, those of blocks left out; then each process, choice and
//! option has a line of its own, in the order of the tree.

use crate::kinds::{ALT, BLOCK, IF, PAR, SEQ, WHILE};
use crate::program::Program;

/// Most characters of a line that are shown.
const SHOWN: usize = 60;

/// Where the rows of a text came from.
pub struct Origin {
    /// The line of each row, counted from 1.
    lines: Vec<usize>,
    /// Each line without its indentation.
    source: Vec<String>,
}

impl Origin {
    /// Where the rows of this program came from, which were read from this text.
    pub fn new(program: &Program, text: &[u8]) -> Origin {
        let lines = text.split(|&byte| byte == b'\n');
        let line = |line: &[u8]| String::from_utf8_lossy(line).trim().to_string();
        Origin {
            lines: lines_of_rows(program),
            source: lines.map(line).collect(),
        }
    }

    /// The line of a row.
    pub fn line(&self, row: usize) -> usize {
        self.lines[row]
    }

    /// The line of a row as written, without its indentation, shortened.
    pub fn source(&self, row: usize) -> String {
        let source = self.whole_source(row);
        match source.chars().count() > SHOWN {
            true => source.chars().take(SHOWN).chain("...".chars()).collect(),
            false => source.to_string(),
        }
    }

    /// The name that a declaration's line declares: the word before its colon.
    pub fn name(&self, declaration: usize) -> &str {
        let source = self.whole_source(declaration);
        let before = source.trim_end_matches([':', ' ']);
        let is_of_a_word = |letter: char| letter.is_ascii_alphanumeric() || letter == '_';
        let begin = before.trim_end_matches(is_of_a_word).len();
        &before[begin..]
    }

    fn whole_source(&self, row: usize) -> &str {
        let line = self.source.get(self.lines[row] - 1);
        line.map_or("", String::as_str)
    }
}

/// The line of each row of a text.
fn lines_of_rows(program: &Program) -> Vec<usize> {
    let is_block = |row: &usize| program.rows[*row].kind == BLOCK;
    let blocks = (0..program.rows.len()).filter(is_block).count();
    let headers = program.declarations.saturating_sub(blocks);
    let mut walk = Walk {
        program,
        lines: (1..=program.rows.len()).collect(),
        next: headers + 1,
    };
    if program.declarations < program.rows.len() {
        walk.process(program.declarations);
    }
    walk.lines
}

/// A walk over the processes in the order of their lines.
struct Walk<'p> {
    program: &'p Program,
    lines: Vec<usize>,
    /// The line that comes next.
    next: usize,
}

impl Walk<'_> {
    /// Gives lines to a process and all beneath it.
    fn process(&mut self, row: usize) {
        let [a, b, _] = self.program.rows[row].fields.map(|field| field as usize);
        match self.program.rows[row].kind {
            SEQ | PAR => {
                self.take(&[row]);
                for member in self.program.list(row) {
                    self.lines[member] = self.next;
                    self.process(self.program.rows[member].a() as usize);
                }
            }
            IF | ALT => {
                self.take(&[row]);
                for link in self.program.list(row) {
                    self.take_with_all_beneath(link, self.program.rows[link].c() as usize);
                    self.process(self.program.rows[link].a() as usize);
                }
            }
            WHILE => {
                self.take_with_all_beneath(row, a);
                self.process(b);
            }
            BLOCK => {
                self.take(&[row, a]);
                self.process(b);
            }
            _ => self.take_with_all_beneath(row, row),
        }
    }

    /// Gives the next line to a row, and to another with all beneath it.
    fn take_with_all_beneath(&mut self, row: usize, other: usize) {
        let rows = [vec![row, other], self.program.beneath(other)].concat();
        self.take(&rows);
    }

    /// Gives the next line to these rows.
    fn take(&mut self, rows: &[usize]) {
        for &row in rows {
            self.lines[row] = self.next;
        }
        self.next += 1;
    }
}

#[cfg(test)]
mod tests {
    use super::*;
    use crate::kinds::{ASSIGNMENT, CHANNEL, CHOICE, INPUT, OPTION, OUTPUT, SKIP, STOP, VARIABLE};
    use crate::kinds::{ELEMENT, FROM_HOST, GUARD, LITERAL, MEMBER, TO_HOST};
    use occam_table::read_text;
    use std::fs;
    use std::path::Path;

    /// The words and numbers of a line.
    fn pieces(line: &str) -> Vec<&str> {
        let parts = line.split(|c: char| !c.is_ascii_alphanumeric() && c != '_');
        parts.filter(|part| !part.is_empty()).collect()
    }

    /// Whether a line can be that of a row of this kind.
    fn fits(program: &Program, row: usize, line: &str) -> bool {
        let (kind, begins) = (program.rows[row].kind, |word| {
            pieces(line).first() == Some(&word)
        });
        let names = || {
            let name = program.name(program.rows[row].a() as usize);
            pieces(line).contains(&name.as_str())
        };
        match kind {
            VARIABLE => line.contains("INT") && line.ends_with(':'),
            CHANNEL if program.rows[row].b() == FROM_HOST => begins("HOSTIN"),
            CHANNEL if program.rows[row].b() == TO_HOST => begins("HOSTOUT"),
            CHANNEL => line.contains("CHAN") && line.ends_with(':'),
            LITERAL => {
                let digits = program.rows[row].a().unsigned_abs().to_string();
                digits == "0" || pieces(line).contains(&digits.as_str())
            }
            ELEMENT => names(),
            SKIP => line == "SKIP" || line.replace(' ', "").ends_with("&SKIP"),
            STOP => line == "STOP",
            SEQ => line == "SEQ",
            PAR => line == "PAR",
            IF => line == "IF",
            ALT => line == "ALT",
            WHILE => begins("WHILE"),
            BLOCK => line.contains("INT") && line.ends_with(':') && names(),
            ASSIGNMENT => line.contains(":=") && names(),
            INPUT => line.contains('?') && names(),
            OUTPUT => line.contains('!') && names(),
            GUARD => line.contains('&'),
            OPTION => line.contains('?') || line.contains('&'),
            CHOICE => !line.contains(['?', '&', '!', ':']),
            MEMBER => true,
            _ => !line.is_empty(),
        }
    }

    /// Compares the lines of all rows of a text with what stands there; tells how many rows.
    fn compare(name: &str, text: &[u8]) -> usize {
        let Ok(rows) = read_text(text) else {
            return 0;
        };
        let program = Program::of_text(&rows, text);
        let lines: Vec<String> = String::from_utf8_lossy(text)
            .lines()
            .map(|line| line.trim().to_string())
            .collect();
        let origin = Origin::new(&program, text);
        for row in 0..rows.len() {
            let line = &lines[origin.line(row) - 1];
            assert!(fits(&program, row, line), "{name}, row {row}: {line}");
        }
        for (at, line) in lines.iter().enumerate() {
            let has_a_row = (0..rows.len()).any(|row| origin.line(row) == at + 1);
            assert!(has_a_row, "{name}, line {}: {line}", at + 1);
        }
        rows.len()
    }

    /// The bytes of the files of a folder whose names end so; of an input up to its line `=`.
    fn files(folder: &str, end: &str) -> Vec<(String, Vec<u8>)> {
        let folder = Path::new(env!("CARGO_MANIFEST_DIR")).join(folder);
        let files = fs::read_dir(folder).expect("the folder is there");
        let paths = files.map(|file| file.expect("a file").path());
        let named = paths.map(|path| (path.display().to_string(), path));
        let wanted = named.filter(|(name, _)| name.ends_with(end));
        let read = wanted.map(|(name, path)| (name, fs::read(path).expect("bytes")));
        let text = |bytes: Vec<u8>| reference::printing::split_input(&bytes).0.to_vec();
        read.map(|(name, bytes)| (name, text(bytes))).collect()
    }

    #[test]
    fn lines_of_the_stored_texts() {
        let cases = files("../../cases", ".in");
        let stored = cases.iter().filter(|(name, _)| name.contains("q2-"));
        let rows: usize = stored.map(|(name, text)| compare(name, text)).sum();
        assert!(rows > 1_000, "{rows} rows");
        for (name, text) in files("../../examples", ".occam") {
            assert!(compare(&name, &text) > 10, "{name}");
        }
    }

    #[test]
    fn lines_of_generated_texts() {
        use reference::generate::occam::text_input;
        let mut rows = 0;
        for seed in 0..600 {
            let (input, _) = text_input(seed, !seed.is_multiple_of(5));
            let (text, _) = reference::printing::split_input(&input);
            rows += compare(&format!("seed {seed}"), text);
        }
        assert!(rows > 10_000, "{rows} rows");
    }
}
