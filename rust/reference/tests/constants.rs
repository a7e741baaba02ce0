//! Constant subscripts (request 07): what the stored cases cannot show. What a subscript counts for
//! wherever one counts, the verdict beside that of a slow search, what document 01 accepts accepted
//! still, and all orders of tables that document 01 refuses.

mod common;
use common::clashes::{clashes, differs, Rule};
use common::{assert_enough, moved, refused, stored_inputs, Tally};
use reference::explore::{explore, Finding};
use reference::generate::{generate, Aim};
use reference::printing::split_input;
use reference::{check_bytes, Outcome};

/// The rings of six burners, of cells and of channel elements (checks 9 and 10 of the request's note).
const RINGS: [(&str, &[u8]); 2] = [
    (
        "cells",
        include_bytes!("../../../cases/q7-ring-of-cells.in"),
    ),
    (
        "channel elements",
        include_bytes!("../../../cases/q7-ring-of-channels-0.in"),
    ),
];

/// A name of four numbers, each of which has a literal: a[K] := 2, c[K] ? y, c[K] ! 2.
const SETS: &str = "22,0,+1,+2 10,K,0,0 10,2,0,0";
const INPUTS: &str = "23,2,+1,+2 10,K,0,0 11,3,+3,0 10,0,0,0";
const OUTPUTS: &str = "24,2,+1,+2 10,K,0,0 10,2,0,0";

/// Each place of a subscript: a process with the subscript in row E, the process beside it, and the
/// refusal of the two if they clash.
const PLACES: [(&str, &str, u8); 9] = [
    // a[E] := 1
    ("22,0,E,+1 10,1,0,0", SETS, 7),
    // x := a[E]
    ("22,1,+1,+2 10,0,0,0 11,0,E,0", SETS, 7),
    // x := GIVEN a[E]
    ("22,1,+1,+2 10,0,0,0 12,2,+3,0 11,0,E,0", SETS, 7),
    // c[0] ? a[E]
    ("23,2,+1,+2 10,0,0,0 11,0,E,0", SETS, 7),
    // ALT(c[0] ? a[E], SKIP)
    (
        "34,+1,0,0 42,+2,-1,+3 21,0,0,0 23,2,+4,+5 10,0,0,0 11,0,E,0",
        SETS,
        7,
    ),
    // c[E] ? x
    ("23,2,E,+1 11,1,+2,0 10,0,0,0", INPUTS, 8),
    // ALT(c[E] ? x, SKIP)
    (
        "34,+1,0,0 42,+2,-1,+3 21,0,0,0 23,2,E,+4 11,1,+5,0 10,0,0,0",
        INPUTS,
        8,
    ),
    // ALT(0 & c[E] ? x, SKIP)
    (
        "34,+1,0,0 42,+2,-1,+3 21,0,0,0 43,+4,+5,0 10,0,0,0 23,2,E,+6 11,1,+7,0 10,0,0,0",
        INPUTS,
        8,
    ),
    // c[E] ! 1
    ("24,2,E,+1 10,1,0,0", OUTPUTS, 9),
];

/// Each sort of subscript, and the numbers of a name of four for which it counts.
const SUBSCRIPTS: [(&str, &[usize]); 18] = [
    // 2
    ("10,2,0,0", &[2]),
    // 1 + 1
    ("13,0,+1,+2 10,1,0,0 10,1,0,0", &[2]),
    // ((1 + 1) * 2) - 1
    (
        "13,1,+1,+6 13,2,+2,+5 13,0,+3,+4 10,1,0,0 10,1,0,0 10,2,0,0 10,1,0,0",
        &[3],
    ),
    // -(-1)
    ("12,0,+1,0 10,-1,0,0", &[1]),
    // NOT 5
    ("12,1,+1,0 10,5,0,0", &[0]),
    // 2 + 2, -(1), 2147483647 PLUS 1: outside
    ("13,0,+1,+2 10,2,0,0 10,2,0,0", &[]),
    ("12,0,+1,0 10,1,0,0", &[]),
    ("13,5,+1,+2 10,2147483647,0,0 10,1,0,0", &[]),
    // 0 AND (1 / 0), 1 OR (1 / 0)
    ("13,14,+1,+2 10,0,0,0 13,3,+3,+4 10,1,0,0 10,0,0,0", &[0]),
    ("13,15,+1,+2 10,1,0,0 13,3,+3,+4 10,1,0,0 10,0,0,0", &[1]),
    // no value: 1 AND (1 / 0), 1 / 0, 2147483647 + 1
    (
        "13,14,+1,+2 10,1,0,0 13,3,+3,+4 10,1,0,0 10,0,0,0",
        &[0, 1, 2, 3],
    ),
    ("13,3,+1,+2 10,1,0,0 10,0,0,0", &[0, 1, 2, 3]),
    ("13,0,+1,+2 10,2147483647,0,0 10,1,0,0", &[0, 1, 2, 3]),
    // no constant: 0 AND x, 1 OR x, x * 0, GIVEN x, x
    ("13,14,+1,+2 10,0,0,0 11,1,+3,0 10,0,0,0", &[0, 1, 2, 3]),
    ("13,15,+1,+2 10,1,0,0 11,1,+3,0 10,0,0,0", &[0, 1, 2, 3]),
    ("13,2,+1,+2 11,1,+3,0 10,0,0,0 10,0,0,0", &[0, 1, 2, 3]),
    ("12,2,+1,0 11,1,+2,0 10,0,0,0", &[0, 1, 2, 3]),
    ("11,1,+1,0 10,0,0,0", &[0, 1, 2, 3]),
];

/// The refusal of a PAR, row 4, of a process with this subscript and the one beside it, after
/// declarations of a of four cells, x, c of four elements and y.
fn refusal(process: &str, subscript: &str, beside: &str) -> (u8, u32) {
    let first = 7;
    let expression = first + process.split_whitespace().count();
    let second = expression + subscript.split_whitespace().count();
    let process = process.replace('E', &expression.to_string());
    let rows = [
        &format!("1,4,0,0 1,1,0,0 2,4,0,0 1,1,0,0 31,5,0,0 40,{first},6,0 40,{second},-1,0"),
        &moved(&process, first),
        &moved(subscript, expression),
        &moved(beside, second),
    ];
    refused(&rows.map(String::as_str).join(" "))
}

#[test]
fn a_subscript_counts_alike_wherever_it_counts() {
    for (process, beside, number) in PLACES {
        for (subscript, counted) in SUBSCRIPTS {
            for k in 0..4 {
                let wanted = match counted.contains(&k) {
                    true => (number, 4),
                    false => (0, 0),
                };
                let found = refusal(process, subscript, &beside.replace('K', &k.to_string()));
                assert_eq!(found, wanted, "{process} with {subscript} beside {k}");
            }
        }
    }
}

#[test]
fn a_subscript_as_deep_as_a_table_is_long() {
    // a[NOT NOT ... 0] := 1, with an odd number of NOTs
    let nots = (1..=1_001).map(|next| format!("12,1,+{next},0 "));
    let subscript = nots.collect::<String>() + "10,0,0,0";
    let beside = |k: i32| SETS.replace('K', &k.to_string());
    let found = [0, 1, 2].map(|k| refusal(PLACES[0].0, &subscript, &beside(k)));
    assert_eq!(found, [(0, 0), (7, 4), (0, 0)]);
}

/// How a table's clashes are under the rule of document 01 and that of request 07: the verdict is
/// that of the slow search, and the new rule only removes clashes.
fn compare(what: &str, table: &[u8]) -> Option<&'static str> {
    let (literal, constant) = (
        clashes(table, Rule::Literal)?,
        clashes(table, Rule::Constant)?,
    );
    let refusal = check_bytes(table).err();
    let found = refusal.map(|refusal| (refusal.number, refusal.place));
    assert_eq!(found, constant.first().copied(), "{what}");
    assert!(constant.is_subset(&literal), "{what}");
    Some(match (literal.is_empty(), constant.is_empty()) {
        (true, true) => "accepted",
        (false, true) => "accepted by constants alone",
        _ if constant.first() != literal.first() => "refused otherwise",
        _ => "refused",
    })
}

#[test]
fn generated_verdicts_are_those_of_the_slow_search() {
    let mut sorts = Tally::new();
    for seed in 0..1_500 {
        let aim = match seed % 4 {
            0 => Some(Aim::Accepted),
            1 => Some(Aim::WithoutAlt),
            2 => Some(Aim::Refusal([7, 8, 9][(seed / 4 % 3) as usize])),
            _ => None,
        };
        let input = generate(seed, seed % 3 > 0, aim);
        let (table, _) = split_input(&input.bytes);
        if let Some(sort) = compare(&format!("seed {seed}"), table) {
            *sorts.entry(sort).or_insert(0) += 1;
        }
    }
    let least = [
        ("accepted", 400),
        ("accepted by constants alone", 100),
        ("refused", 200),
        ("refused otherwise", 30),
    ];
    assert_enough(&sorts, &least);
}

#[test]
fn stored_verdicts_are_those_of_the_slow_search() {
    let mut by_constants = 0;
    for (file, input) in stored_inputs() {
        let (table, _) = split_input(&input);
        let sort = compare(&file, table);
        by_constants += usize::from(sort == Some("accepted by constants alone"));
    }
    assert!(by_constants >= 60, "{by_constants}");
}

#[test]
fn all_orders_of_the_rings_agree() {
    for (ring, input) in RINGS {
        let (table, sheet) = split_input(input);
        let program = check_bytes(table).expect("accepted");
        // Six steps, none of which waits for another: 6 * 5 * 4 * 3 * 2 orders.
        let agree = Finding::Agree {
            orders: 720,
            length: 6,
            outcome: Outcome::Ended,
        };
        assert_eq!(explore(&program, sheet, 3_000), Ok(agree), "{ring}");
    }
}

#[test]
fn all_orders_of_tables_accepted_by_constants_alone_agree() {
    let (mut agreeing, mut with_choice) = (0, 0);
    for seed in 0..1_500 {
        let input = generate(seed, true, Some(Aim::WithoutAlt));
        let (table, sheet) = split_input(&input.bytes);
        if !differs(table, Rule::Literal, Rule::Constant) {
            continue;
        }
        let program = check_bytes(table).expect("accepted");
        match explore(&program, sheet, 3_000) {
            Ok(Finding::Differ { .. }) => panic!("orders differ: seed {seed}"),
            Ok(Finding::Agree { orders, .. }) => {
                agreeing += 1;
                with_choice += u32::from(orders > 1);
            }
            _ => {}
        }
    }
    assert!(
        agreeing >= 100 && with_choice >= 60,
        "{agreeing} {with_choice}"
    );
}
