//! A small builder of tables: rows are numbered as they are put down.

use std::fmt::Write;

/// A variable or channel by its row, and a literal subscript.
#[derive(Clone, Copy)]
pub struct Name(pub i32, pub i32);

/// An expression.
pub enum Expression {
    Literal(i32),
    Cell(Name),
    /// A cell whose subscript is an expression.
    At(i32, Box<Expression>),
    /// An operator's number and its operands.
    Dyadic(i32, Box<Expression>, Box<Expression>),
}

/// The guard of an option.
pub enum Guard {
    /// An input into a cell.
    Input(Name, Name),
    /// A boolean and SKIP.
    Skip(i32),
}

/// A process.
pub enum Process {
    Skip,
    Assign(Name, Expression),
    /// An assignment to a cell whose subscript is an expression.
    AssignAt(i32, Expression, Expression),
    Input(Name, Name),
    Output(Name, Expression),
    Seq(Vec<Process>),
    Par(Vec<Process>),
    If(Vec<(Expression, Process)>),
    /// An ALT, SKIP after each of its guards.
    Alt(Vec<Guard>),
    While(Expression, Box<Process>),
}

pub const PLUS: i32 = 0;
pub const DIVIDE: i32 = 3;
pub const REMAINDER: i32 = 4;
pub const LESS: i32 = 10;

/// An operator over two expressions.
pub fn dyadic(operator: i32, left: Expression, right: Expression) -> Expression {
    Expression::Dyadic(operator, Box::new(left), Box::new(right))
}

/// A cell plus 1.
pub fn raised(name: Name) -> Expression {
    dyadic(PLUS, Expression::Cell(name), Expression::Literal(1))
}

/// Counts a cell from 0 up to a number, with these processes each time.
pub fn repeat(counter: Name, times: i32, mut body: Vec<Process>) -> Process {
    body.push(Process::Assign(counter, raised(counter)));
    let again = dyadic(LESS, Expression::Cell(counter), Expression::Literal(times));
    let body = match body.len() {
        1 => body.remove(0),
        _ => Process::Seq(body),
    };
    Process::Seq(vec![
        Process::Assign(counter, Expression::Literal(0)),
        Process::While(again, Box::new(body)),
    ])
}

/// The bytes of the table of these declarations and this root.
pub fn table(declarations: &[[i32; 4]], root: &Process) -> Vec<u8> {
    let mut tree = Tree {
        rows: declarations.to_vec(),
    };
    tree.process(root);
    bytes(&tree.rows)
}

/// The bytes of rows.
pub fn bytes(rows: &[[i32; 4]]) -> Vec<u8> {
    let mut text = String::from("kind,a,b,c\n");
    for [kind, a, b, c] in rows {
        let written = writeln!(text, "{kind},{a},{b},{c}");
        debug_assert!(written.is_ok());
    }
    text.into_bytes()
}

/// The rows put down so far.
struct Tree {
    rows: Vec<[i32; 4]>,
}

impl Tree {
    /// Puts down a row whose fields are found later; tells its number.
    fn row(&mut self, kind: i32) -> usize {
        self.rows.push([kind, 0, 0, 0]);
        self.rows.len() - 1
    }

    /// Puts down a literal.
    fn literal(&mut self, value: i32) -> i32 {
        let row = self.row(10);
        self.rows[row][1] = value;
        row as i32
    }

    fn expression(&mut self, expression: &Expression) -> i32 {
        match expression {
            Expression::Literal(value) => self.literal(*value),
            Expression::Cell(name) => self.cell(*name),
            Expression::At(variable, subscript) => {
                let row = self.row(11);
                let subscript = self.expression(subscript);
                self.rows[row] = [11, *variable, subscript, 0];
                row as i32
            }
            Expression::Dyadic(operator, left, right) => {
                let row = self.row(13);
                let (left, right) = (self.expression(left), self.expression(right));
                self.rows[row] = [13, *operator, left, right];
                row as i32
            }
        }
    }

    /// Puts down an element row with a literal subscript.
    fn cell(&mut self, Name(variable, number): Name) -> i32 {
        let row = self.row(11);
        let subscript = self.literal(number);
        self.rows[row] = [11, variable, subscript, 0];
        row as i32
    }

    fn process(&mut self, process: &Process) -> i32 {
        match process {
            Process::Skip => self.row(21) as i32,
            Process::Assign(Name(variable, number), expression) => {
                let subscript = Expression::Literal(*number);
                self.action(22, *variable, &subscript, |tree| {
                    tree.expression(expression)
                })
            }
            Process::AssignAt(variable, subscript, expression) => {
                self.action(22, *variable, subscript, |tree| tree.expression(expression))
            }
            Process::Input(name, target) => self.input(*name, *target),
            Process::Output(Name(channel, element), expression) => {
                let element = Expression::Literal(*element);
                self.action(24, *channel, &element, |tree| tree.expression(expression))
            }
            Process::Seq(members) => self.members(30, members),
            Process::Par(members) => self.members(31, members),
            Process::If(choices) => self.choices(choices),
            Process::Alt(guards) => self.options(guards),
            Process::While(boolean, body) => {
                let row = self.row(33);
                let boolean = self.expression(boolean);
                self.rows[row] = [33, boolean, self.process(body), 0];
                row as i32
            }
        }
    }

    /// Puts down an input.
    fn input(&mut self, Name(channel, element): Name, target: Name) -> i32 {
        let element = Expression::Literal(element);
        self.action(23, channel, &element, |tree| tree.cell(target))
    }

    /// Puts down an assignment, input or output.
    fn action(
        &mut self,
        kind: i32,
        name: i32,
        subscript: &Expression,
        last: impl FnOnce(&mut Tree) -> i32,
    ) -> i32 {
        let row = self.row(kind);
        let subscript = self.expression(subscript);
        self.rows[row] = [kind, name, subscript, last(self)];
        row as i32
    }

    /// Puts down a SEQ or PAR.
    fn members(&mut self, kind: i32, members: &[Process]) -> i32 {
        let row = self.row(kind);
        let mut above = (row, 1);
        for member in members {
            let link = self.link(40, above);
            self.rows[link][1] = self.process(member);
            above = (link, 2);
        }
        self.rows[above.0][above.1] = -1;
        row as i32
    }

    /// Puts down an IF.
    fn choices(&mut self, choices: &[(Expression, Process)]) -> i32 {
        let row = self.row(32);
        let mut above = (row, 1);
        for (boolean, process) in choices {
            let link = self.link(41, above);
            self.rows[link][3] = self.expression(boolean);
            self.rows[link][1] = self.process(process);
            above = (link, 2);
        }
        self.rows[above.0][above.1] = -1;
        row as i32
    }

    /// Puts down an ALT.
    fn options(&mut self, guards: &[Guard]) -> i32 {
        let row = self.row(34);
        let mut above = (row, 1);
        for guard in guards {
            let link = self.link(42, above);
            self.rows[link][1] = self.row(21) as i32;
            self.rows[link][3] = self.guard(guard);
            above = (link, 2);
        }
        self.rows[above.0][above.1] = -1;
        row as i32
    }

    /// Puts down a guard.
    fn guard(&mut self, guard: &Guard) -> i32 {
        match guard {
            Guard::Input(name, target) => self.input(*name, *target),
            Guard::Skip(boolean) => {
                let row = self.row(43);
                let boolean = self.literal(*boolean);
                self.rows[row] = [43, boolean, self.row(21) as i32, 0];
                row as i32
            }
        }
    }

    /// Puts down a member, choice or option, to which a field of an earlier row refers.
    fn link(&mut self, kind: i32, (row, field): (usize, usize)) -> usize {
        let link = self.row(kind);
        self.rows[row][field] = link as i32;
        link
    }
}
