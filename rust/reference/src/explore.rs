//! All orders of steps of a small table, to see whether they agree at rest.

use crate::program::Program;
use crate::refusal::Refusal;
use crate::run::{outcome_at_rest, Outcome};
use crate::sheet::{readings_of_bytes, Readings};
use crate::state::State;
use crate::steps::{ready_steps, take_step, Step};
use std::collections::{HashMap, HashSet};
use std::fmt;

/// What was found about all orders.
#[derive(Clone, Debug, PartialEq, Eq)]
pub enum Finding {
    /// Every order rests after this many steps in one state.
    Agree {
        orders: u64,
        length: u64,
        outcome: Outcome,
    },
    /// Two resting orders differ in length, or in state only.
    Differ { length: u64, other: u64 },
    /// The most points were seen before all orders were.
    Limit { points: usize, depth: u64 },
    /// Some order never rests.
    Loop { points: usize, depth: u64 },
}

impl fmt::Display for Finding {
    fn fmt(&self, out: &mut fmt::Formatter<'_>) -> fmt::Result {
        match self {
            Finding::Agree {
                orders,
                length,
                outcome,
            } => {
                write!(out, "agree,{orders},{length},{}", outcome.word())
            }
            Finding::Differ { length, other } if length == other => {
                write!(out, "differ,{length},{other},state")
            }
            Finding::Differ { length, other } => write!(out, "differ,{length},{other},length"),
            Finding::Limit { points, depth } => write!(out, "open,{points},{depth},limit"),
            Finding::Loop { points, depth } => write!(out, "open,{points},{depth},loop"),
        }
    }
}

/// Looks at all orders, depth first, up to this many points; refusal 10 for a bad sheet.
pub fn explore(program: &Program, sheet: &[u8], most_points: usize) -> Result<Finding, Refusal> {
    let readings = readings_of_bytes(sheet, &program.layout.readings)?;
    let mut search = Search::new(program, &readings, most_points);
    Ok(search.finding())
}

/// A point: a state and how many steps were taken to it.
type Point = (State, u64);

/// A point on the path from the start, with the steps not yet followed.
struct Open {
    state: State,
    left: Vec<Step>,
    orders: u64,
}

/// A depth-first search over the points.
struct Search<'a> {
    program: &'a Program,
    readings: &'a Readings,
    most_points: usize,
    /// The orders that come to rest from each point that is done.
    done: HashMap<Point, u64>,
    /// The states on the path.
    on_path: HashSet<State>,
    path: Vec<Open>,
    /// The first rest found, and its length.
    rest: Option<Point>,
    points: usize,
    depth: u64,
}

impl<'a> Search<'a> {
    /// A search that has seen nothing yet.
    fn new(program: &'a Program, readings: &'a Readings, most_points: usize) -> Search<'a> {
        Search {
            program,
            readings,
            most_points,
            done: HashMap::new(),
            on_path: HashSet::new(),
            path: Vec::new(),
            rest: None,
            points: 0,
            depth: 0,
        }
    }

    /// The finding: a difference as soon as one is met, else a loop, the limit, or agreement.
    fn finding(&mut self) -> Finding {
        let mut orders = match self.enter(State::start(self.program)) {
            Entered::Known(orders) => orders,
            Entered::Opened => 0,
            Entered::Found(finding) => return finding,
        };
        let mut loops = false;
        while let Some(open) = self.path.last_mut() {
            if let Some(step) = open.left.pop() {
                let mut state = open.state.clone();
                take_step(self.program, self.readings, &mut state, step);
                if self.on_path.contains(&state) {
                    loops = true;
                    continue;
                }
                match self.enter(state) {
                    Entered::Known(more) => self.add_orders(more),
                    Entered::Opened => {}
                    Entered::Found(finding) => return finding,
                }
            } else {
                orders = self.leave();
            }
        }
        match &self.rest {
            Some((state, length)) if !loops => {
                let outcome = outcome_at_rest(self.program, state);
                Finding::Agree {
                    orders,
                    length: *length,
                    outcome,
                }
            }
            _ => Finding::Loop {
                points: self.points,
                depth: self.depth,
            },
        }
    }

    /// Comes to a state at the end of the path.
    fn enter(&mut self, state: State) -> Entered {
        let length = self.path.len() as u64;
        self.depth = self.depth.max(length);
        let point = (state, length);
        if let Some(&orders) = self.done.get(&point) {
            return Entered::Known(orders);
        }
        if self.points == self.most_points {
            return Entered::Found(Finding::Limit {
                points: self.points,
                depth: self.depth,
            });
        }
        self.points += 1;
        let mut left = Vec::new();
        ready_steps(self.program, self.readings, &point.0, &mut left);
        if left.is_empty() {
            return self.come_to_rest(point);
        }
        self.on_path.insert(point.0.clone());
        self.path.push(Open {
            state: point.0,
            left,
            orders: 0,
        });
        Entered::Opened
    }

    /// Comes to rest: the first rest is kept, and any other must be equal to it.
    fn come_to_rest(&mut self, point: Point) -> Entered {
        match &self.rest {
            Some(rest) if *rest != point => Entered::Found(Finding::Differ {
                length: rest.1,
                other: point.1,
            }),
            _ => {
                self.rest = Some(point.clone());
                self.done.insert(point, 1);
                Entered::Known(1)
            }
        }
    }

    /// Adds orders that come to rest from the last point of the path.
    fn add_orders(&mut self, more: u64) {
        if let Some(open) = self.path.last_mut() {
            open.orders = open.orders.saturating_add(more);
        }
    }

    /// Leaves the last point of the path, which is done; tells the orders that rest from it.
    fn leave(&mut self) -> u64 {
        let Some(open) = self.path.pop() else {
            return 0;
        };
        self.on_path.remove(&open.state);
        self.add_orders(open.orders);
        self.done
            .insert((open.state, self.path.len() as u64), open.orders);
        open.orders
    }
}

/// What coming to a state told.
enum Entered {
    Known(u64),
    Opened,
    Found(Finding),
}
