//! Expressions and elements: what keeps symbols from being one. Brackets are kept in a list, since
//! they nest as deep as a line is long.

use super::symbols::{shortened, side_by_side, Symbol};
use std::mem::take;
use Symbol::{Mark, Name, Number};

/// The operators between two operands.
const DYADIC: [&str; 16] = [
    "+", "-", "*", "/", "REM", "PLUS", "MINUS", "TIMES", "=", "<>", "<", "<=", ">", ">=", "AND",
    "OR",
];
/// The operators before one operand.
const MONADIC: [&str; 3] = ["-", "NOT", "GIVEN"];

/// What stands between brackets: symbols, where a name with its subscript is one element, and what
/// stands in round brackets one operand.
#[derive(Clone, Copy)]
enum Item<'t> {
    Element(Symbol<'t>),
    Value(Symbol<'t>),
    Operator(&'t str),
}

use Item::{Element, Operator, Value};

/// A bracket that is open: the items before it, and its name if it is a subscript's.
struct Open<'t> {
    before: Vec<Item<'t>>,
    name: Option<Symbol<'t>>,
}

/// That these symbols are an expression, or what is wrong.
pub fn expression(symbols: &[Symbol<'_>]) -> Result<(), String> {
    judge(&items(symbols)?)
}

/// That these symbols are an element, or what is wrong; `what` is its word.
pub fn element(symbols: &[Symbol<'_>], what: &str) -> Result<(), String> {
    match items(symbols)?[..] {
        [Element(_)] => Ok(()),
        [] => Err(format!("{what} is missing")),
        _ => Err(format!(
            "{what} is a name or a name with its subscript and nothing more, without round brackets"
        )),
    }
}

/// The items outside all brackets, or what is wrong inside some or with the brackets.
fn items<'t>(symbols: &[Symbol<'t>]) -> Result<Vec<Item<'t>>, String> {
    let mut opened: Vec<Open<'t>> = Vec::new();
    let mut items = Vec::new();
    let mut rest = symbols;
    while let [first, after @ ..] = rest {
        rest = after;
        match (*first, after) {
            (name @ Name(_), [Mark("["), inside @ ..]) => {
                let (before, name) = (take(&mut items), Some(name));
                opened.push(Open { before, name });
                rest = inside;
            }
            (Mark("("), _) => {
                let (before, name) = (take(&mut items), None);
                opened.push(Open { before, name });
            }
            (bracket @ Mark(")" | "]"), _) => {
                let open = opened
                    .pop()
                    .ok_or_else(|| format!("{} closes no bracket", bracket.text()))?;
                items = closed(open, bracket, &items)?;
            }
            (Mark("["), _) => return Err("[ stands only after a name, and once".to_string()),
            (name @ Name(_), _) => items.push(Element(name)),
            (number @ Number(_), _) => items.push(Value(number)),
            (Mark(mark), _) => items.push(operator(mark)?),
        }
    }
    match opened.last() {
        None => Ok(items),
        Some(Open { name: None, .. }) => Err("a round bracket is not closed".to_string()),
        Some(Open {
            name: Some(name), ..
        }) => Err(format!(
            "the subscript of {} is not closed",
            shortened(name.text())
        )),
    }
}

/// The items before a bracket, and what it closes.
fn closed<'t>(
    open: Open<'t>,
    bracket: Symbol<'t>,
    inside: &[Item<'t>],
) -> Result<Vec<Item<'t>>, String> {
    judge(inside)?;
    let Open { mut before, name } = open;
    before.push(match (name, bracket.text()) {
        (None, ")") => Value(bracket),
        (Some(name), "]") => Element(name),
        (None, _) => return Err("a round bracket is closed by ]".to_string()),
        (Some(_), _) => return Err("a subscript is closed by )".to_string()),
    });
    Ok(before)
}

/// An operator, or why a mark is none.
fn operator(mark: &str) -> Result<Item<'_>, String> {
    match mark {
        "TRUE" => Err("TRUE is no value of a text; write 1".to_string()),
        "FALSE" => Err("FALSE is no value of a text; write 0".to_string()),
        _ if DYADIC.contains(&mark) || MONADIC.contains(&mark) => Ok(Operator(mark)),
        _ => Err(format!("{mark} stands in no expression")),
    }
}

/// That items are an expression, or what is wrong.
fn judge(items: &[Item<'_>]) -> Result<(), String> {
    match *items {
        [] => Err("an expression is missing".to_string()),
        [Element(_) | Value(_)] => Ok(()),
        [Operator("GIVEN"), Element(_)] => Ok(()),
        [Operator("-" | "NOT"), Element(_) | Value(_)] => Ok(()),
        [Element(_) | Value(_), Operator(mark), Element(_) | Value(_)]
            if DYADIC.contains(&mark) =>
        {
            Ok(())
        }
        _ if is_chain(items, "AND") || is_chain(items, "OR") => Ok(()),
        _ => Err(wrong_phrase(items)),
    }
}

/// Whether items are operands with this operator alone between them.
fn is_chain(items: &[Item<'_>], chained: &str) -> bool {
    let alternates = |(at, item): (usize, &Item<'_>)| match item {
        Operator(mark) => at % 2 == 1 && *mark == chained,
        _ => at % 2 == 0,
    };
    items.len() % 2 == 1 && items.iter().enumerate().all(alternates)
}

/// What is wrong with items that are no expression.
fn wrong_phrase(items: &[Item<'_>]) -> String {
    let is_dyadic_only = |mark: &str| !MONADIC.contains(&mark);
    if let [Operator(mark), ..] = items {
        if is_dyadic_only(mark) {
            return format!("an operand is missing before {mark}");
        }
    }
    if let [.., Operator(mark)] = items {
        return format!("an operand is missing after {mark}");
    }
    let mut pairs = items.windows(2);
    let neighbours = pairs.find_map(|pair| match *pair {
        [Operator(one), Operator(other)] if is_dyadic_only(other) => {
            Some(format!("an operand is missing between {one} and {other}"))
        }
        [Element(one) | Value(one), Element(other) | Value(other)] => {
            Some(side_by_side(one, other))
        }
        [Element(one) | Value(one), Operator(mark @ ("NOT" | "GIVEN"))] => Some(format!(
            "an operator is missing between {} and {mark}",
            shortened(one.text())
        )),
        [Operator("GIVEN"), Value(_)] => {
            Some("after GIVEN comes a variable, without round brackets".to_string())
        }
        _ => None,
    });
    neighbours.unwrap_or_else(|| {
        let marks = items.iter().filter_map(|item| match item {
            Operator(mark) => Some(*mark),
            _ => None,
        });
        let marks: Vec<&str> = marks.take(4).collect();
        format!(
            "more than one operator without brackets ({}); put brackets round one, as in \
             (a + b) * 2",
            marks.join(" ")
        )
    })
}

#[cfg(test)]
mod tests {
    use super::super::symbols::scan;
    use super::*;

    fn told(text: &str) -> String {
        expression(&scan(text.as_bytes()).symbols)
            .err()
            .unwrap_or_default()
    }

    #[test]
    fn expressions() {
        for text in [
            "x",
            "((5))",
            "x[1]",
            "x[x[(1)]]",
            "- 5",
            "-x",
            "NOT x",
            "NOT(GIVEN x)",
            "GIVEN a[1]",
            "x - 5",
            "x--5",
            "a AND b AND c",
            "(a+b)*2",
            "a OR (b AND c)",
            "1 AND(NOT 2)",
        ] {
            assert_eq!(told(text), "", "{text}");
        }
    }

    #[test]
    fn what_is_wrong() {
        for (text, word) in [
            ("", "is missing"),
            ("1 + 2 + 3", "(+ +)"),
            ("1 AND 2 OR 3", "(AND OR)"),
            ("1 AND NOT 2", "(AND NOT)"),
            ("NOT GIVEN x", "(NOT GIVEN)"),
            ("- - 1", "(- -)"),
            ("-- x", "(- -)"),
            ("x -5", "to subtract write x - 5"),
            ("(x + 1) -5", "to subtract write ) - 5"),
            ("(x + 1)-5", "to subtract write ) - 5"),
            ("a[1] -5", "to subtract write a - 5"),
            ("x y", "side by side"),
            ("x NOT y", "missing between x and NOT"),
            ("* x", "before *"),
            ("x +", "after +"),
            ("x + * y", "between + and *"),
            ("GIVEN (x)", "without round brackets"),
            ("GIVEN 5", "without round brackets"),
            ("(x", "not closed"),
            ("a[1", "subscript of a is not closed"),
            ("x)", ") closes no bracket"),
            ("(x]", "closed by ]"),
            ("a[1)", "closed by )"),
            ("a[0][1]", "[ stands only after a name"),
            ("()", "is missing"),
            ("TRUE", "write 1"),
            ("x = FALSE", "write 0"),
            ("x := 1", ":= stands in no expression"),
        ] {
            assert!(told(text).contains(word), "{text}: {}", told(text));
        }
        let deep = format!("{}x{}", "(".repeat(16_000), ")".repeat(16_000));
        assert_eq!(told(&deep), "");
    }
}
