//! The run on paper, the marked cases and the unmarked ones.

mod common;
use common::{outcome, print, print_bytes, ran, refused};
use reference::Outcome;

const PAPER: &str = "2,1,1,0 2,1,2,4 1,1,0,0 30,4,0,0 40,5,9,0 23,0,6,7 10,0,0,0 11,2,8,0 \
    10,0,0,0 40,10,-1,0 24,1,11,12 10,0,0,0 13,0,13,15 11,2,14,0 10,0,0,0 10,5,0,0";

#[test]
fn run_on_paper() {
    let wanted = "what,name,at,value\nended,0,0,2\nvar,2,0,120\nout,1,0,125\n";
    assert_eq!(print(PAPER, "0\n120\n"), wanted);
}

#[test]
fn run_on_paper_with_an_absent_reading() {
    let wanted = "what,name,at,value\nbroken,0,0,2\nvar,2,0,\nstop,10,0,1\n";
    assert_eq!(print(PAPER, "0\n\n"), wanted);
}

#[test]
fn refusal_prints_one_line() {
    assert_eq!(print(PAPER, "1\n120\n"), "refused,10,1,0\n");
    assert_eq!(print_bytes(b"", b""), "refused,2,1,0\n");
}

/// x := LEFT operator RIGHT, printed without the line of names.
fn assigned(operator: i32, left: i32, right: i32) -> String {
    let rows = format!("1,1,0,0 22,0,2,3 10,0,0,0 13,{operator},4,5 10,{left},0,0 10,{right},0,0");
    let text = print(&rows, "\n");
    text.strip_prefix("what,name,at,value\n")
        .unwrap_or("")
        .to_string()
}

#[test]
fn marked_values() {
    assert_eq!(assigned(3, -7, 2), "ended,0,0,1\nvar,0,0,-3\n");
    assert_eq!(assigned(4, -7, 2), "ended,0,0,1\nvar,0,0,-1\n");
    assert_eq!(assigned(4, i32::MIN, -1), "ended,0,0,1\nvar,0,0,0\n");
    assert_eq!(
        assigned(3, i32::MIN, -1),
        "broken,0,0,1\nvar,0,0,\nstop,1,0,3\n"
    );
    assert_eq!(
        assigned(0, i32::MAX, 1),
        "broken,0,0,1\nvar,0,0,\nstop,1,0,3\n"
    );
    assert_eq!(
        assigned(5, i32::MAX, 1),
        "ended,0,0,1\nvar,0,0,-2147483648\n"
    );
    assert_eq!(assigned(3, 1, 0), "broken,0,0,1\nvar,0,0,\nstop,1,0,4\n");
}

#[test]
fn marked_and_does_not_look_at_its_second() {
    let rows = "1,1,0,0 22,0,2,3 10,0,0,0 13,14,4,5 10,0,0,0 13,3,6,7 10,1,0,0 10,0,0,0";
    assert_eq!(
        print(rows, "\n"),
        "what,name,at,value\nended,0,0,1\nvar,0,0,0\n"
    );
}

#[test]
fn marked_usage() {
    let x_and_y = "1,1,0,0 1,1,0,0 31,3,0,0 40,5,4,0 40,8,-1,0 22,0,6,7 10,0,0,0 10,1,0,0 \
        22,1,9,10 10,0,0,0 11,0,11,0 10,0,0,0";
    assert_eq!(refused(x_and_y), (7, 2));
    let array = "1,2,0,0 31,2,0,0 40,4,3,0 40,7,-1,0 22,0,5,6 10,0,0,0 10,1,0,0 \
        22,0,8,9 10,1,0,0 10,2,0,0";
    assert_eq!(outcome(array), ("ended", 2));
}

/// c!1 and c?x in a SEQ or PAR.
fn send_and_receive(kind: i32) -> String {
    format!(
        "2,1,0,0 1,1,0,0 {kind},3,0,0 40,5,4,0 40,8,-1,0 24,0,6,7 10,0,0,0 10,1,0,0 \
         23,0,9,10 10,0,0,0 11,1,11,0 10,0,0,0"
    )
}

#[test]
fn marked_communication() {
    assert_eq!(outcome(&send_and_receive(31)), ("ended", 1));
    assert_eq!(outcome(&send_and_receive(30)), ("stuck", 0));
    assert_eq!(ran(&send_and_receive(31), "\n", &[], 10).cells[0], 1);
}

#[test]
fn marked_empty_par_with_budget_0() {
    let empty = ran("31,-1,0,0", "\n", &[], 0);
    assert_eq!((empty.outcome, empty.steps), (Outcome::Ended, 0));
}

#[test]
fn unmarked_cases() {
    assert_eq!(outcome("33,1,2,0 10,1,0,0 21,0,0,0"), ("spent", 65_536));
    assert_eq!(refused(&"21,0,0,0 ".repeat(1_025)), (3, 1_024));
    assert_eq!(refused(&"21,0,0,0 ".repeat(1_024)), (5, 1));
}
