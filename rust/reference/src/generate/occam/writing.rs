//! The lines of an accepted table's text, bracketed in some way, with some names out of order.

use super::super::random::Random;
use super::lines::{Opens, Stands, WrittenLine};
use super::names::some_names;
use crate::kinds::{
    declaration_count, ALT, ASSIGNMENT, BLOCK, CHANNEL, DYADIC, ELEMENT, FROM_HOST, GIVEN, GUARD,
    IF, INNER, INPUT, LITERAL, MONADIC, OUTPUT, PAR, SEQ, SKIP, STOP, TO_HOST, VARIABLE, WHILE,
};
use crate::table::Row;

/// The dyadic operators by their numbers, and the monadic ones.
const DYADIC_WORDS: [&str; 16] = [
    "+", "-", "*", "/", "REM", "PLUS", "MINUS", "TIMES", "=", "<>", "<", "<=", ">", ">=", "AND",
    "OR",
];
const MONADIC_WORDS: [&str; 3] = ["-", "NOT", "GIVEN"];
const AND: i32 = 14;

/// The lines of an accepted table, with so many twists: names out of order, as far as there are uses
/// of names; the lines at fault are marked.
pub fn written(random: &mut Random, rows: &[Row], twists: usize) -> Vec<WrittenLine> {
    let root = declaration_count(rows);
    let uses = rows[root..].iter().filter(|row| names_a_declaration(row));
    let uses = uses.count();
    let twisted = (0..twists.min(uses)).map(|_| random.below(uses)).collect();
    let mut writer = Writer {
        rows,
        names: some_names(random, root),
        random,
        lines: Vec::new(),
        twisted,
        use_count: 0,
    };
    writer.declarations();
    writer.process(root, 0);
    writer.lines
}

/// Whether a row names a declaration.
fn names_a_declaration(row: &Row) -> bool {
    matches!(row.kind, ELEMENT | ASSIGNMENT | INPUT | OUTPUT | BLOCK)
}

/// Writes a table line by line.
struct Writer<'a> {
    rows: &'a [Row],
    names: Vec<String>,
    random: &'a mut Random,
    lines: Vec<WrittenLine>,
    /// The uses, counted as they are written, that are written with another name or bare.
    twisted: Vec<usize>,
    use_count: usize,
}

impl Writer<'_> {
    /// Writes the declarations of all names that have no block.
    fn declarations(&mut self) {
        for row in 0..declaration_count(self.rows) {
            let of_this = |other: &Row| other.kind == BLOCK && other.a as usize == row;
            if !self.rows.iter().any(of_this) {
                self.lines.push(WrittenLine::empty(0, Opens::Header));
                let name = self.names[row].clone();
                self.declaration(row, name);
            }
        }
    }

    /// Writes a declaration into the last line.
    fn declaration(&mut self, row: usize, name: String) {
        let Row { kind, a, b, c } = self.rows[row];
        if kind == CHANNEL && b != INNER {
            self.token(if b == FROM_HOST { "HOSTIN" } else { "HOSTOUT" });
            if b == TO_HOST {
                self.token(&c.to_string());
            }
        } else {
            if a != 1 || self.random.chance(20) {
                self.tokens(&["[", &a.to_string(), "]"]);
            }
            self.token(if kind == VARIABLE { "INT" } else { "CHAN" });
        }
        self.tokens(&[&name, ":"]);
    }

    /// Writes a process at a level.
    fn process(&mut self, row: usize, level: usize) {
        let Row { kind, a, b, .. } = self.rows[row];
        let opens = match kind {
            SEQ | PAR | IF | ALT => Opens::Many,
            WHILE => Opens::One,
            BLOCK => Opens::Block,
            _ => Opens::Nothing,
        };
        self.lines.push(WrittenLine::empty(level, opens));
        match kind {
            STOP => self.token("STOP"),
            SKIP => self.token("SKIP"),
            SEQ | PAR => {
                self.token(if kind == SEQ { "SEQ" } else { "PAR" });
                self.members(a, level + 1);
            }
            IF | ALT => {
                self.token(if kind == IF { "IF" } else { "ALT" });
                self.branches(a, level + 1);
            }
            WHILE => {
                self.token("WHILE");
                self.expression(a as usize);
                self.process(b as usize, level + 1);
            }
            BLOCK => {
                let name = self.name_in_use(a as usize);
                self.declaration(a as usize, name);
                self.process(b as usize, level);
            }
            _ => self.action(row),
        }
    }

    /// Writes the members of a SEQ or PAR.
    fn members(&mut self, first: i32, level: usize) {
        let mut link = first;
        while let Ok(member) = usize::try_from(link) {
            self.process(self.rows[member].a as usize, level);
            link = self.rows[member].b;
        }
    }

    /// Writes the choices of an IF, or the options of an ALT.
    fn branches(&mut self, first: i32, level: usize) {
        let mut link = first;
        while let Ok(branch) = usize::try_from(link) {
            let Row { a, b, c, .. } = self.rows[branch];
            let mut line = WrittenLine::empty(level, Opens::One);
            let is_option = [INPUT, GUARD].contains(&self.rows[c as usize].kind);
            line.stands = match is_option {
                true => Stands::Option,
                false => Stands::Choice,
            };
            self.lines.push(line);
            match is_option {
                true => self.guard(c as usize),
                false => self.expression(c as usize),
            }
            self.process(a as usize, level + 1);
            link = b;
        }
    }

    /// Writes a guard.
    fn guard(&mut self, row: usize) {
        let Row { kind, a, b, .. } = self.rows[row];
        if kind == INPUT {
            return self.action(row);
        }
        self.expression(a as usize);
        self.token("&");
        match self.rows[b as usize].kind {
            SKIP => self.token("SKIP"),
            _ => self.action(b as usize),
        }
    }

    /// Writes an assignment, an input or an output.
    fn action(&mut self, row: usize) {
        let Row { kind, a, b, c } = self.rows[row];
        self.element(a as usize, b as usize);
        match kind {
            ASSIGNMENT => self.token(":="),
            INPUT => self.token("?"),
            _ => self.token("!"),
        }
        match kind {
            INPUT => self.plain(c as usize),
            _ => self.expression(c as usize),
        }
    }

    /// Writes an expression, perhaps in brackets that make no difference.
    fn expression(&mut self, row: usize) {
        let pairs = self.random.pick(&[0, 0, 0, 0, 0, 0, 1, 2]);
        self.bracketed(row, pairs);
    }

    /// Writes an operand: an operation needs brackets, others may have them.
    fn operand(&mut self, row: usize) {
        let needed = usize::from(matches!(self.rows[row].kind, MONADIC | DYADIC));
        let more = self.random.pick(&[0, 0, 0, 0, 0, 0, 1, 3]);
        self.bracketed(row, needed + more);
    }

    /// Writes an expression in so many pairs of brackets.
    fn bracketed(&mut self, row: usize, pairs: usize) {
        self.tokens(&vec!["("; pairs]);
        self.plain(row);
        self.tokens(&vec![")"; pairs]);
    }

    /// Writes an expression without brackets round it.
    fn plain(&mut self, row: usize) {
        let Row { kind, a, b, c } = self.rows[row];
        match kind {
            LITERAL => self.token(&a.to_string()),
            ELEMENT => self.element(a as usize, b as usize),
            MONADIC => {
                self.token(MONADIC_WORDS[a as usize]);
                match a {
                    GIVEN => self.plain(b as usize),
                    _ => self.operand(b as usize),
                }
            }
            _ => {
                self.operand(b as usize);
                self.token(DYADIC_WORDS[a as usize]);
                let right = self.rows[c as usize];
                let chained = a >= AND && right.kind == DYADIC && right.a == a;
                match chained && self.random.chance(60) {
                    true => self.plain(c as usize),
                    false => self.operand(c as usize),
                }
            }
        }
    }

    /// Writes an element; if its size is one and its subscript the literal 0, perhaps bare.
    fn element(&mut self, declared: usize, subscript: usize) {
        let size = self.rows[declared].a;
        let twisted = self.twisted.contains(&self.use_count);
        if twisted && size != 1 && self.random.chance(60) {
            self.use_count += 1;
            self.mark_misnamed();
            return self.token(&self.names[declared].clone());
        }
        let name = self.name_in_use(declared);
        self.token(&name);
        let is_zero = self.rows[subscript] == Row::new(LITERAL, 0, 0, 0);
        if size == 1 && is_zero && self.random.chance(70) {
            return;
        }
        self.token("[");
        self.expression(subscript);
        self.token("]");
    }

    /// The name to write for a declaration, another one if this use is twisted: of another sort or
    /// nowhere declared. In the declaration of a block that is a name declared before it.
    fn name_in_use(&mut self, declared: usize) -> String {
        let twisted = self.twisted.contains(&self.use_count);
        self.use_count += 1;
        if !twisted {
            return self.names[declared].clone();
        }
        let is_block = self
            .lines
            .last()
            .is_some_and(|line| line.opens == Opens::Block);
        let earlier = self
            .lines
            .first()
            .filter(|line| line.opens == Opens::Header);
        let wrong = match (is_block, earlier) {
            (true, None) => return self.names[declared].clone(),
            (true, Some(header)) => header.name().to_string(),
            (false, _) => self.name_of_another_sort(declared),
        };
        self.mark_misnamed();
        wrong
    }

    /// A name declared as another sort or with the other host role, or a new one.
    fn name_of_another_sort(&mut self, declared: usize) -> String {
        let (rows, count) = (self.rows, declaration_count(self.rows));
        let meant = rows[declared];
        let is_wrong = |row: usize| {
            let hosts = rows[row].b != INNER && meant.b != INNER;
            rows[row].kind != meant.kind || hosts && rows[row].b != meant.b
        };
        let other = self.random.pick_where(count, is_wrong);
        match other.filter(|_| self.random.chance(50)) {
            Some(row) => self.names[row].clone(),
            None => "zzz".to_string(),
        }
    }

    /// Notes that a name in the last line is not in order.
    fn mark_misnamed(&mut self) {
        if let Some(line) = self.lines.last_mut() {
            line.misnamed = true;
        }
    }

    /// Writes a symbol into the last line.
    fn token(&mut self, token: &str) {
        self.tokens(&[token]);
    }

    /// Writes symbols into the last line.
    fn tokens(&mut self, tokens: &[&str]) {
        if let Some(line) = self.lines.last_mut() {
            line.tokens
                .extend(tokens.iter().map(|token| token.to_string()));
        }
    }
}
