//! Generated inputs: good and damaged tables, sheets, choices and budgets, from a seed alone.

mod arrays;
mod blocks;
mod choices;
mod communications;
mod damage;
mod endless;
mod expressions;
mod loops;
mod maker;
pub mod occam;
mod pairs;
pub mod random;
mod rights;
mod shapes;
mod subscripts;
mod surroundings;
mod text;
mod tree;

use crate::answer::{answer_bytes, Answer, BUDGET_LIMIT, BUFFER_LENGTHS};
use crate::kinds::{ALT, IF, PAR, SEQ, WHILE};
use crate::printing::split_input;
use crate::run::Outcome;
use crate::table::{table_text, Row, ROWS};
use maker::{program, Style};
use random::Random;
use rights::Share;
use surroundings::{join_input, some_budget, some_choices, some_sheet};

/// A table, a sheet, choices and a budget.
pub type Parts = (Vec<u8>, Vec<u8>, Vec<u16>, u64);

/// What the generator aims at.
#[derive(Clone, Copy, Debug, PartialEq, Eq)]
pub enum Aim {
    /// A table and sheet that nothing refuses.
    Accepted,
    /// An accepted table without ALT.
    WithoutAlt,
    /// An accepted table of an unusual shape: deep, long, or at a limit.
    Shape,
    /// The refusal of this number, 2 to 11 or 14.
    Refusal(u8),
    /// Random changes to rows or bytes.
    Mutated,
    /// PARs for the count of pairs compared: a table that is accepted, or refused as 7, 8 or 9.
    Pairs,
    /// An accepted table without ALT: a PAR of loops without an end, which write to the host.
    Endless,
}

/// A generated input: the runner's input, choices and budget.
#[derive(Clone, Debug, PartialEq, Eq)]
pub struct Input {
    pub bytes: Vec<u8>,
    pub choices: Vec<u16>,
    pub budget: u64,
}

impl Input {
    /// The table, the sheet, the choices and the budget.
    pub fn parts(self) -> Parts {
        let (table, sheet) = split_input(&self.bytes);
        (table.to_vec(), sheet.to_vec(), self.choices, self.budget)
    }

    /// The answer of this program.
    pub fn answer(&self) -> Answer {
        self.answer_within(u64::MAX)
    }

    /// The answer of this program, with no greater budget than this.
    fn answer_within(&self, budget: u64) -> Answer {
        let (table, sheet) = split_input(&self.bytes);
        let budget = self.budget.min(budget);
        answer_bytes(table, sheet, &self.choices, budget, BUFFER_LENGTHS)
    }

    /// The flags for the runner; none for the runner's own budget and no choices.
    pub fn flags(&self) -> String {
        let mut flags = Vec::new();
        if self.budget != BUDGET_LIMIT {
            flags.push(format!("--budget {}", self.budget));
        }
        if !self.choices.is_empty() {
            let choices: Vec<String> = self.choices.iter().map(u16::to_string).collect();
            flags.push(format!("--choices {}", choices.join(",")));
        }
        flags.join(" ")
    }
}

/// The input of a seed: table, sheet, choices and budget.
pub fn input(seed: u64) -> Parts {
    generate(seed, false, None).parts()
}

/// The small input of a seed: at most 40 rows, 1,000 bytes and 40 steps.
pub fn small_input(seed: u64) -> Parts {
    generate(seed, true, None).parts()
}

/// Most rows, bytes and steps of a small input.
const SMALL_ROWS: usize = 40;
const SMALL_BYTES: usize = 1_000;
const SMALL_STEPS: u64 = 40;

/// The input of a seed, small or not, aimed at something or at a mix.
pub fn generate(seed: u64, small: bool, aim: Option<Aim>) -> Input {
    let mut random = Random::new(seed);
    let aim = aim.unwrap_or_else(|| some_aim(&mut random, small));
    let plan = Plan {
        small,
        aim,
        outcome: random.pick(&[
            Outcome::Ended,
            Outcome::Stuck,
            Outcome::Broken,
            Outcome::Spent,
        ]),
        first: random.pick(&[PAR, PAR, PAR, ALT, WHILE, IF, SEQ]),
        apart: random.chance(match (small, aim) {
            (false, _) | (_, Aim::Refusal(_)) => 60,
            (true, _) => 45,
        }),
    };
    let mut best = None;
    for _ in 0..60 {
        let input = attempt(&mut random, plan);
        let answer = input.answer();
        if small && !is_small(&input, &answer) {
            continue;
        }
        let worth = worth(&answer, plan);
        if worth == MOST_WORTH {
            return input;
        }
        if best.as_ref().is_none_or(|(most, _)| worth > *most) {
            best = Some((worth, input));
        }
    }
    let smallest = || Input {
        bytes: b"kind,a,b,c\n21,0,0,0\n=\n\n".to_vec(),
        choices: Vec::new(),
        budget: BUDGET_LIMIT,
    };
    best.map_or_else(smallest, |(_, input)| input)
}

/// What the attempts of one seed have in common.
#[derive(Clone, Copy)]
struct Plan {
    small: bool,
    aim: Aim,
    /// The outcome wanted of an accepted input.
    outcome: Outcome,
    /// The kind of construction wanted in it.
    first: i32,
    /// Whether the components of its PARs should often have numbers of one array each.
    apart: bool,
}

/// Something to aim at: about half accepted.
fn some_aim(random: &mut Random, small: bool) -> Aim {
    match random.below(100) {
        0..=23 => Aim::WithoutAlt,
        24..=46 => Aim::Accepted,
        47..=50 => Aim::Shape,
        51..=84 => {
            let numbers: &[u8] = if small {
                &[2, 4, 4, 5, 5, 6, 7, 8, 9, 10, 11, 14]
            } else {
                &[2, 2, 3, 4, 4, 5, 5, 6, 7, 7, 8, 9, 10, 10, 11, 14]
            };
            Aim::Refusal(random.pick(numbers))
        }
        85..=96 => Aim::Mutated,
        _ => Aim::Pairs,
    }
}

/// Whether an input is small enough for a prover to compute.
fn is_small(input: &Input, answer: &Answer) -> bool {
    let (table, _) = split_input(&input.bytes);
    let lines = table.iter().filter(|&&byte| byte == b'\n').count();
    let steps = match answer {
        Answer::Ran(ran) => ran.steps,
        Answer::Refused(_) => 0,
    };
    lines <= SMALL_ROWS + 1 && input.bytes.len() <= SMALL_BYTES && steps <= SMALL_STEPS
}

/// Worth of an input that is all that was aimed at.
const MOST_WORTH: u64 = u64::MAX;

/// How near an answer is to what was aimed at; accepted ones should take several steps.
fn worth(answer: &Answer, plan: Plan) -> u64 {
    match (plan.aim, answer) {
        (Aim::Mutated, _) => MOST_WORTH,
        (Aim::Pairs, Answer::Refused(refusal)) if (7..=9).contains(&refusal.number) => MOST_WORTH,
        (Aim::Refusal(number), Answer::Refused(refusal)) if refusal.number == number => MOST_WORTH,
        (Aim::Refusal(_), _) => 0,
        (_, Answer::Refused(_)) => 0,
        (Aim::Shape | Aim::Pairs | Aim::Endless, Answer::Ran(_)) => MOST_WORTH,
        (_, Answer::Ran(ran)) => {
            let wanted = ran.outcome == plan.outcome;
            let several = match (plan.small, plan.apart) {
                (true, true) => 2,
                (true, false) => 3,
                (false, _) => 4,
            };
            match wanted && ran.steps >= several {
                true => MOST_WORTH,
                false => 1 + ran.steps.min(20) + if wanted { 10 } else { 0 },
            }
        }
    }
}

/// One attempt at an input.
fn attempt(random: &mut Random, plan: Plan) -> Input {
    let Plan { small, aim, .. } = plan;
    let mut rows = some_rows(random, plan);
    match aim {
        Aim::Refusal(4) => damage::damage_kinds(random, &mut rows),
        Aim::Refusal(5) => damage::damage_references(random, &mut rows),
        Aim::Refusal(6) => damage::damage_limits(random, &mut rows),
        Aim::Refusal(14) => damage::damage_blocks(random, &mut rows),
        Aim::Mutated if random.chance(50) => damage::mutate_rows(random, &mut rows),
        _ => {}
    }
    if matches!(aim, Aim::Refusal(_)) && random.chance(20) && !rows.is_empty() {
        damage::mutate_rows(random, &mut rows);
    }
    let mut table = table_text(&rows).into_bytes();
    let mut sheet = some_sheet(random, &rows, small);
    match aim {
        Aim::Refusal(2) => text::damage_table_text(random, &mut table, small),
        Aim::Refusal(3) => text::damage_row_count(random, &mut table),
        Aim::Refusal(10) => text::damage_sheet(random, &mut sheet, small),
        Aim::Refusal(_) if random.chance(15) => text::damage_sheet(random, &mut sheet, small),
        _ => {}
    }
    let bytes = join_input(random, table, sheet, aim);
    let (choices, budget) = (some_choices(random), some_budget(random, aim));
    let mut input = Input {
        bytes,
        choices,
        budget,
    };
    bound_steps(random, &mut input, plan);
    input
}

/// The rows of a program to begin with.
fn some_rows(random: &mut Random, plan: Plan) -> Vec<Row> {
    let Plan { small, aim, .. } = plan;
    if aim == Aim::Shape {
        let most = if small { SMALL_ROWS } else { ROWS };
        let length = random.between(most / 2, most);
        return shapes::shape(random, length);
    }
    if aim == Aim::Pairs {
        let most = match small {
            true => random.between(SMALL_ROWS / 2, SMALL_ROWS),
            false => random.pick(&[SMALL_ROWS, 100, 250, 600, ROWS]),
        };
        return pairs::pars(random, most);
    }
    if aim == Aim::Endless {
        return endless::loops(random, small);
    }
    let par = match aim {
        Aim::Refusal(7..=9) => true,
        Aim::WithoutAlt => matches!(plan.first, PAR | ALT | SEQ),
        _ => plan.first == PAR || plan.apart && plan.first == ALT,
    };
    let apart = par && plan.apart;
    let locals = match (small, apart) {
        (true, true) => random.below(2),
        (true, false) => random.pick(&[0, 1, 1, 2]),
        (false, _) => random.pick(&[0, 0, 1, 2, 3, 5]),
    };
    let first = match aim {
        Aim::Refusal(7..=9) => PAR,
        _ if locals > 0 && !apart && random.chance(20) => WHILE,
        _ if par => PAR,
        _ => plan.first,
    };
    let shared = |number| matches!(aim, Aim::Refusal(aimed) if aimed == number);
    let alt = aim != Aim::WithoutAlt && (plan.first == ALT || random.chance(60));
    let troubled = matches!(plan.outcome, Outcome::Stuck | Outcome::Broken);
    let carelessness = match (troubled, small) {
        (true, true) => random.pick(&[2, 10, 20, 30]),
        (true, false) => random.pick(&[0, 2, 5, 10]),
        (false, _) => 0,
    };
    let style = Style {
        size: match small {
            true => random.between(12, 26),
            false => random.pick(&[12, 25, 40, 60, 100, 200, 400]),
        },
        carelessness,
        depth: if small { 1 } else { random.between(1, 3) },
        first,
        alt,
        locals,
        apart,
        share: Share {
            cells: shared(7),
            inputs: shared(8),
            outputs: shared(9),
        },
    };
    program(random, style)
}

/// Gives runs a smaller budget if spent is wanted, or if they are long.
fn bound_steps(random: &mut Random, input: &mut Input, plan: Plan) {
    if input.budget > BUDGET_LIMIT {
        return;
    }
    let most = if plan.small { SMALL_STEPS } else { 2_000 };
    let Answer::Ran(ran) = input.answer_within(most + 1) else {
        return;
    };
    if ran.steps > most {
        let seldom_long = plan.small || !random.chance(10);
        if seldom_long {
            input.budget = random.below(most as usize + 1) as u64;
        }
    } else if plan.outcome == Outcome::Spent && ran.steps > 0 {
        input.budget = random.below(ran.steps as usize) as u64;
    } else if random.chance(5) {
        input.budget = ran.steps;
    }
}
