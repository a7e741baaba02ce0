//! Words for the kinds of rows: the name of each, and what its fields a, b and c hold.

/// The three fields of a row.
pub const FIELD_NAMES: [char; 3] = ['a', 'b', 'c'];

pub const VARIABLE: i32 = 1;
pub const CHANNEL: i32 = 2;
pub const LITERAL: i32 = 10;
pub const ELEMENT: i32 = 11;
pub const MONADIC: i32 = 12;
pub const DYADIC: i32 = 13;
pub const STOP: i32 = 20;
pub const SKIP: i32 = 21;
pub const ASSIGNMENT: i32 = 22;
pub const INPUT: i32 = 23;
pub const OUTPUT: i32 = 24;
pub const SEQ: i32 = 30;
pub const PAR: i32 = 31;
pub const IF: i32 = 32;
pub const WHILE: i32 = 33;
pub const ALT: i32 = 34;
pub const BLOCK: i32 = 35;
pub const MEMBER: i32 = 40;
pub const CHOICE: i32 = 41;
pub const OPTION: i32 = 42;
pub const GUARD: i32 = 43;

/// The monadic operator whose operand is an element.
pub const GIVEN: i32 = 2;

/// Roles of a channel.
pub const INNER: i32 = 0;
pub const FROM_HOST: i32 = 1;
pub const TO_HOST: i32 = 2;

/// What a field of a row holds, and the field's word.
#[derive(Clone, Copy, Debug, PartialEq, Eq)]
pub enum Field {
    /// Not used: 0.
    Unused,
    /// The value of a literal.
    Value,
    /// A number from the first to the second.
    Within(&'static str, i32, i32),
    /// The row of a declared variable.
    Variable,
    /// The row of a declared channel of one of two roles.
    Channel(i32, i32),
    /// A reference to a higher row of one of these kinds.
    Refers(&'static str, &'static [i32]),
    /// Such a reference, or -1 for none.
    RefersOrNone(&'static str, &'static [i32]),
}

use Field::{Channel, Refers, RefersOrNone, Unused, Value, Variable, Within};

const EXPRESSION: &[i32] = &[LITERAL, ELEMENT, MONADIC, DYADIC];
pub const PROCESS: &[i32] = &[
    STOP, SKIP, ASSIGNMENT, INPUT, OUTPUT, SEQ, PAR, IF, WHILE, ALT, BLOCK,
];

/// The name of a kind, and what its fields hold; none for an unknown kind.
pub fn kind_of(number: i32) -> Option<(&'static str, [Field; 3])> {
    Some(match number {
        VARIABLE => ("variable", [Within("cells", 1, 64), Unused, Unused]),
        CHANNEL => (
            "channel",
            [
                Within("elements", 1, 64),
                Within("role", INNER, TO_HOST),
                Within("capacity", 0, 256),
            ],
        ),
        LITERAL => ("literal", [Value, Unused, Unused]),
        ELEMENT => (
            "element",
            [Variable, Refers("subscript", EXPRESSION), Unused],
        ),
        MONADIC => (
            "monadic",
            [
                Within("operator", 0, GIVEN),
                Refers("operand", EXPRESSION),
                Unused,
            ],
        ),
        DYADIC => (
            "dyadic",
            [
                Within("operator", 0, 15),
                Refers("first operand", EXPRESSION),
                Refers("second operand", EXPRESSION),
            ],
        ),
        STOP => ("STOP", [Unused; 3]),
        SKIP => ("SKIP", [Unused; 3]),
        ASSIGNMENT => (
            "assignment",
            [
                Variable,
                Refers("subscript", EXPRESSION),
                Refers("expression", EXPRESSION),
            ],
        ),
        INPUT => (
            "input",
            [
                Channel(INNER, FROM_HOST),
                Refers("subscript", EXPRESSION),
                Refers("target", &[ELEMENT]),
            ],
        ),
        OUTPUT => (
            "output",
            [
                Channel(INNER, TO_HOST),
                Refers("subscript", EXPRESSION),
                Refers("expression", EXPRESSION),
            ],
        ),
        SEQ => (
            "SEQ",
            [RefersOrNone("first member", &[MEMBER]), Unused, Unused],
        ),
        PAR => (
            "PAR",
            [RefersOrNone("first member", &[MEMBER]), Unused, Unused],
        ),
        IF => (
            "IF",
            [RefersOrNone("first choice", &[CHOICE]), Unused, Unused],
        ),
        WHILE => (
            "WHILE",
            [
                Refers("boolean", EXPRESSION),
                Refers("process", PROCESS),
                Unused,
            ],
        ),
        ALT => (
            "ALT",
            [RefersOrNone("first option", &[OPTION]), Unused, Unused],
        ),
        BLOCK => ("block", [Variable, Refers("process", PROCESS), Unused]),
        MEMBER => (
            "member",
            [
                Refers("process", PROCESS),
                RefersOrNone("next", &[MEMBER]),
                Unused,
            ],
        ),
        CHOICE => (
            "choice",
            [
                Refers("process", PROCESS),
                RefersOrNone("next", &[CHOICE]),
                Refers("boolean", EXPRESSION),
            ],
        ),
        OPTION => (
            "option",
            [
                Refers("process", PROCESS),
                RefersOrNone("next", &[OPTION]),
                Refers("guard", &[INPUT, GUARD]),
            ],
        ),
        GUARD => (
            "guard",
            [
                Refers("boolean", EXPRESSION),
                Refers("input or SKIP", &[INPUT, SKIP]),
                Unused,
            ],
        ),
        _ => return None,
    })
}

/// The name of a kind.
pub fn kind_name(number: i32) -> &'static str {
    kind_of(number).map_or("unknown kind", |(name, _)| name)
}

impl Field {
    /// The field's word, as "subscript".
    pub fn word(self) -> &'static str {
        match self {
            Unused => "not used",
            Value => "value",
            Within(word, ..) => word,
            Variable => "variable",
            Channel(..) => "channel",
            Refers(word, _) | RefersOrNone(word, _) => word,
        }
    }

    /// What should stand in the field.
    pub fn expected(self) -> String {
        match self {
            Unused => "0, since this kind does not use the field".to_string(),
            Value => "any number".to_string(),
            Within(_, least, most) => format!("a number from {least} to {most}"),
            Variable => "the row of a variable (kind 1) among the declarations".to_string(),
            Channel(one, other) => format!(
                "the row of a channel (kind 2) of role {one} or {other} among the declarations"
            ),
            Refers(_, kinds) => format!("a higher row, {}", listed_kinds(kinds)),
            RefersOrNone(_, kinds) => {
                format!("a higher row, {}, or -1 for none", listed_kinds(kinds))
            }
        }
    }

    /// The kinds that a reference may go to, and whether -1 is allowed; none for other fields.
    pub fn reference(self) -> Option<(&'static [i32], bool)> {
        match self {
            Refers(_, kinds) => Some((kinds, false)),
            RefersOrNone(_, kinds) => Some((kinds, true)),
            _ => None,
        }
    }
}

/// Words for some kinds.
fn listed_kinds(kinds: &[i32]) -> String {
    match kinds {
        _ if kinds == EXPRESSION => "an expression (kind 10 to 13)".to_string(),
        _ if kinds == PROCESS => "a process (kind 20 to 35)".to_string(),
        _ => {
            let words: Vec<String> = kinds
                .iter()
                .map(|&kind| format!("kind {kind} ({})", kind_name(kind)))
                .collect();
            words.join(" or ")
        }
    }
}
