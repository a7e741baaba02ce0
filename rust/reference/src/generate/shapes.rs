//! Generated tables of an unusual shape: deep, long, or at a limit.

use super::maker::Maker;
use super::random::Random;
use super::tree::Slot;
use crate::kinds::{CHANNEL, CHOICE, FROM_HOST, IF, INNER, SKIP, TO_HOST, VARIABLE};
use crate::table::Row;

const NOTHING: Slot = Slot::Number(0);

/// An accepted table of an unusual shape; `most` is about how many rows it may have.
pub fn shape(random: &mut Random, most: usize) -> Vec<Row> {
    let shape = random.below(12);
    let declarations = match random.below(4) {
        _ if shape == 0 => many_variables(random, most),
        0 => at_the_limits(random),
        _ => vec![
            Row::new(VARIABLE, 64, 0, 0),
            Row::new(CHANNEL, 64, INNER, 0),
            Row::new(CHANNEL, 1, FROM_HOST, 0),
            Row::new(CHANNEL, 1, TO_HOST, 20),
        ],
    };
    let mut maker = Maker::by_hand(random, declarations, most);
    let most = most.saturating_sub(maker.declarations.len());
    let root = match shape {
        0 => maker.deep_blocks(),
        9 => maker.deep_operands(most),
        1 => maker.deep_constructions(most),
        2 => maker.deep_choices(most),
        3 => maker.long_sequence(most),
        4 => maker.many_loops(most),
        5 => maker.pipeline(most),
        6 => maker.deep_loops(most),
        7 => maker.deep_subscripts(most),
        10..=11 => maker.ring(most),
        _ => maker.every_cell(most),
    };
    maker.rows(root)
}

/// Variables, each of which gets a block; at most as many as there can be cells.
fn many_variables(random: &mut Random, most: usize) -> Vec<Row> {
    let count = random.between(1, (most / 3).min(256));
    vec![Row::new(VARIABLE, 1, 0, 0); count]
}

/// Declarations that reach the limits of cells, elements, host channels and capacities.
fn at_the_limits(random: &mut Random) -> Vec<Row> {
    let mut rows = vec![
        Row::new(VARIABLE, 64, 0, 0),
        Row::new(CHANNEL, 64, INNER, 0),
        Row::new(CHANNEL, 1, FROM_HOST, 0),
        Row::new(CHANNEL, 1, TO_HOST, 256),
    ];
    let mut others = vec![Row::new(CHANNEL, 48, INNER, 0)];
    others.extend([Row::new(VARIABLE, 64, 0, 0); 3]);
    others.extend([Row::new(CHANNEL, 64, INNER, 0); 2]);
    others.extend([Row::new(CHANNEL, 1, FROM_HOST, 0); 7]);
    others.extend([Row::new(CHANNEL, 1, TO_HOST, 256); 3]);
    others.extend([Row::new(CHANNEL, 1, TO_HOST, 0); 4]);
    random.shuffle(&mut others);
    rows.extend(others);
    rows
}

impl Maker<'_> {
    /// An assignment of a literal or other expression to a cell of the variable in row 0.
    fn set_cell(&mut self, cell: i32, expression: usize) -> usize {
        let subscript = self.literal(cell);
        self.assign(0, subscript, expression)
    }

    /// The value of a cell of the variable in row 0.
    fn read_cell(&mut self, cell: i32) -> usize {
        let subscript = self.literal(cell);
        self.element_of(0, subscript)
    }

    /// An assignment with operands in operands.
    fn deep_operands(&mut self, most: usize) -> usize {
        let mut expression = self.literal(1);
        while self.tree.node_count() + 5 < most {
            expression = match self.random.below(3) {
                0 => self.monadic(0, expression),
                1 => {
                    let one = self.literal(1);
                    self.dyadic(6, one, expression)
                }
                _ => {
                    let one = self.literal(1);
                    self.dyadic(5, expression, one)
                }
            };
        }
        self.set_cell(0, expression)
    }

    /// Elements as subscripts of elements.
    fn deep_subscripts(&mut self, most: usize) -> usize {
        let zero = self.literal(0);
        let first = self.set_cell(0, zero);
        let mut expression = self.literal(0);
        while self.tree.node_count() + 8 < most {
            expression = self.element_of(0, expression);
        }
        let second = self.set_cell(1, expression);
        self.seq(&[first, second])
    }

    /// SEQs and PARs in each other.
    fn deep_constructions(&mut self, most: usize) -> usize {
        let one = self.literal(1);
        let mut process = self.set_cell(0, one);
        while self.tree.node_count() + 4 < most {
            process = match self.random.below(3) {
                0 => self.par(&[process]),
                1 => {
                    let skip = self.skip();
                    self.seq(&[skip, process])
                }
                _ => self.seq(&[process]),
            };
        }
        process
    }

    /// Blocks in each other, one for each variable, at times in a loop, around an assignment.
    fn deep_blocks(&mut self) -> usize {
        let variables = self.declarations.len();
        let (zero, one) = (self.literal(0), self.literal(1));
        let set = self.random.below(variables);
        let mut process = self.assign(set, zero, one);
        for variable in 0..variables {
            process = self.block_of(variable, process);
        }
        if self.random.chance(30) {
            let boolean = self.literal(1);
            process = self.while_loop(boolean, process);
        }
        self.seq(&[process])
    }

    /// IFs in each other.
    fn deep_choices(&mut self, most: usize) -> usize {
        let one = self.literal(1);
        let mut process = self.set_cell(0, one);
        while self.tree.node_count() + 3 < most {
            let boolean = self.literal(1);
            process = self.list(IF, CHOICE, vec![(process, Slot::Node(boolean))]);
        }
        process
    }

    /// WHILEs in each other, of which only the innermost moves.
    fn deep_loops(&mut self, most: usize) -> usize {
        let mut process = self.skip();
        while self.tree.node_count() + 2 < most {
            let boolean = self.literal(1);
            process = self.while_loop(boolean, process);
        }
        process
    }

    /// A long SEQ of SKIPs and assignments.
    fn long_sequence(&mut self, most: usize) -> usize {
        let mut members = Vec::new();
        while self.tree.node_count() + members.len() + 6 < most {
            let member = match self.random.chance(70) {
                true => self.skip(),
                false => {
                    let value = self.random.below(1000) as i32;
                    let value = self.literal(value);
                    let cell = self.random.below(64) as i32;
                    self.set_cell(cell, value)
                }
            };
            members.push(member);
        }
        self.seq(&members)
    }

    /// A PAR of loops that count, each in its own cell.
    fn many_loops(&mut self, most: usize) -> usize {
        let mut members = Vec::new();
        let times = self.random.pick(&[1, 5, 50, 5000]);
        while members.len() < 64 && self.tree.node_count() + members.len() + 26 < most {
            let cell = members.len() as i32;
            let zero = self.literal(0);
            let first = self.set_cell(cell, zero);
            let (count, bound) = (self.read_cell(cell), self.literal(times));
            let boolean = self.dyadic(10, count, bound);
            let (count, one) = (self.read_cell(cell), self.literal(1));
            let sum = self.dyadic(0, count, one);
            let body = self.set_cell(cell, sum);
            let repeated = self.while_loop(boolean, body);
            members.push(self.seq(&[first, repeated]));
        }
        self.par(&members)
    }

    /// A PAR in which each component hands a number on to the next.
    fn pipeline(&mut self, most: usize) -> usize {
        let mut members = vec![];
        let seven = self.literal(7);
        members.push(self.send(0, seven));
        while members.len() < 60 && self.tree.node_count() + members.len() + 30 < most {
            let cell = members.len() as i32;
            let input = self.receive(cell - 1, cell);
            let (read, one) = (self.read_cell(cell), self.literal(1));
            let sum = self.dyadic(5, read, one);
            let output = self.send(cell, sum);
            members.push(self.seq(&[input, output]));
        }
        let last = members.len() as i32;
        members.push(self.receive(last - 1, last));
        self.par(&members)
    }

    /// An output to an element of the channel in row 1.
    fn send(&mut self, element: i32, expression: usize) -> usize {
        let subscript = self.literal(element);
        self.output(1, subscript, expression)
    }

    /// An input from an element of the channel in row 1 to a cell.
    fn receive(&mut self, element: i32, cell: i32) -> usize {
        let subscript = self.literal(element);
        let target = self.read_cell(cell);
        self.input(1, subscript, target)
    }

    /// A PAR of processes in a ring: each sets a cell of its neighbour, or sends to it and receives
    /// from the one before.
    fn ring(&mut self, most: usize) -> usize {
        let by_cells = self.random.chance(40);
        let rows = if by_cells { 8 } else { 15 };
        let count = (most.saturating_sub(1) / rows).min(64) as i32;
        let member = |number: i32| {
            let (subscript, value) = (self.neighbour(number, count), self.literal(number));
            if by_cells {
                return self.assign(0, subscript, value);
            }
            let output = self.output(1, subscript, value);
            let input = self.receive(number, number);
            self.par(&[output, input])
        };
        let members: Vec<usize> = (0..count).map(member).collect();
        self.par(&members)
    }

    /// The number after this one in a ring: (number + 1) REM count.
    fn neighbour(&mut self, number: i32, count: i32) -> usize {
        let (number, one) = (self.literal(number), self.literal(1));
        let sum = self.dyadic(0, number, one);
        let count = self.literal(count);
        self.dyadic(4, sum, count)
    }

    /// A loop that sets every cell of the variable by a computed subscript, and writes to the host.
    fn every_cell(&mut self, most: usize) -> usize {
        let bound = self.random.between(1, 70) as i32;
        let zero = self.literal(0);
        let first = self.set_cell(63, zero);
        let (count, limit) = (self.read_cell(63), self.literal(bound));
        let boolean = self.dyadic(10, count, limit);
        let (subscript, value) = (self.read_cell(63), self.read_cell(63));
        let sets = self.assign(0, subscript, value);
        let (host_subscript, value) = (self.literal(0), self.read_cell(63));
        let writes = self.output(3, host_subscript, value);
        let (count, one) = (self.read_cell(63), self.literal(1));
        let sum = self.dyadic(0, count, one);
        let counts = self.set_cell(63, sum);
        let mut members = vec![sets, writes, counts];
        while self.tree.node_count() + members.len() + 12 < most && self.random.chance(90) {
            members.push(self.tree.add(SKIP, NOTHING, NOTHING, NOTHING));
        }
        let body = self.seq(&members);
        let repeated = self.while_loop(boolean, body);
        self.seq(&[first, repeated])
    }
}
