//! Usage in a PAR: the clashes and what comes near to one.

mod common;
use common::{moved, refused, refused_bytes, table};

/// A PAR, row 6, of two processes after declarations of x, a of two cells, c of two elements, d,
/// a channel from the host and one to it. A field `+N` of a process is its own row plus N.
fn par_of(first: &str, second: &str) -> String {
    let declarations = "1,1,0,0 1,2,0,0 2,2,0,0 2,1,0,0 2,1,1,0 2,1,2,4";
    let first_row = 9;
    let second_row = first_row + first.split_whitespace().count();
    let links = format!("31,7,0,0 40,{first_row},8,0 40,{second_row},-1,0");
    let (first, second) = (moved(first, first_row), moved(second, second_row));
    format!("{declarations} {links} {first} {second}")
}

const SET_X: &str = "22,0,+1,+2 10,0,0,0 10,1,0,0";
const READ_X: &str = "24,5,+1,+2 10,0,0,0 11,0,+3,0 10,0,0,0";
const SET_A0: &str = "22,1,+1,+2 10,0,0,0 10,1,0,0";
const SET_A1: &str = "22,1,+1,+2 10,1,0,0 10,1,0,0";
const SET_A9: &str = "22,1,+1,+2 10,9,0,0 10,1,0,0";
const C0_TO_X: &str = "23,2,+1,+2 10,0,0,0 11,0,+3,0 10,0,0,0";
const C0_TO_A0: &str = "23,2,+1,+2 10,0,0,0 11,1,+3,0 10,0,0,0";
const C1_TO_A0: &str = "23,2,+1,+2 10,1,0,0 11,1,+3,0 10,0,0,0";
const C9_TO_A0: &str = "23,2,+1,+2 10,9,0,0 11,1,+3,0 10,0,0,0";
const C_ANY_TO_A0: &str = "23,2,+1,+2 11,1,+4,0 11,1,+3,0 10,0,0,0 10,1,0,0";
const OUT_C0: &str = "24,2,+1,+2 10,0,0,0 10,1,0,0";
const OUT_C1: &str = "24,2,+1,+2 10,1,0,0 10,1,0,0";
const OUT_C_ANY: &str = "24,2,+1,+2 11,0,+3,0 10,1,0,0 10,0,0,0";
const IN_TO_X: &str = "23,4,+1,+2 10,0,0,0 11,0,+3,0 10,0,0,0";
const IN_TO_A0: &str = "23,4,+1,+2 10,0,0,0 11,1,+3,0 10,0,0,0";
const HOST_OUT: &str = "24,5,+1,+2 10,0,0,0 10,1,0,0";
const ALT_IN_TO_X: &str =
    "34,+1,0,0 42,+2,-1,+3 21,0,0,0 43,+4,+5,0 10,1,0,0 23,4,+6,+7 10,0,0,0 11,0,+8,0 10,0,0,0";
const IF_X: &str = "32,+1,0,0 41,+2,-1,+3 21,0,0,0 11,0,+4,0 10,0,0,0";
const A_OF_X: &str = "22,1,+1,+2 11,0,+3,0 10,1,0,0 10,0,0,0";

#[test]
fn usage_in_a_par() {
    for (first, second, wanted) in [
        (SET_X, SET_A0, 0),
        (SET_X, SET_X, 7),
        (SET_X, READ_X, 7),
        (C0_TO_X, READ_X, 7),
        (ALT_IN_TO_X, READ_X, 7),
        (SET_X, IF_X, 7),
        (SET_X, A_OF_X, 7),
        (READ_X, IF_X, 0),
        (SET_A0, SET_A1, 0),
        (SET_A0, SET_A9, 0),
        (A_OF_X, SET_A1, 7),
        (A_OF_X, SET_A9, 0),
        (C0_TO_X, C0_TO_A0, 8),
        (C0_TO_X, C1_TO_A0, 0),
        (C0_TO_X, C9_TO_A0, 0),
        (C0_TO_X, C_ANY_TO_A0, 8),
        (C9_TO_A0, SET_A0, 7),
        (IN_TO_X, IN_TO_A0, 8),
        (ALT_IN_TO_X, IN_TO_A0, 8),
        (OUT_C0, OUT_C0, 9),
        (OUT_C0, OUT_C1, 0),
        (OUT_C1, OUT_C_ANY, 9),
        (OUT_C0, C0_TO_X, 0),
        (HOST_OUT, HOST_OUT, 9),
        (HOST_OUT, READ_X, 9),
        (IN_TO_X, HOST_OUT, 0),
    ] {
        for (one, other) in [(first, second), (second, first)] {
            let answer = refused_bytes(&table(&par_of(one, other)), b"4\n");
            let place = if wanted == 0 { 0 } else { 6 };
            assert_eq!(answer, (wanted, place), "{one} | {other}");
        }
    }
}

#[test]
fn a_cell_clash_anywhere_goes_before_an_input_clash() {
    let rows = "1,1,0,0 2,1,0,0 1,1,0,0 30,4,0,0 40,6,5,0 40,16,-1,0 \
        31,7,0,0 40,8,11,0 23,1,9,10 10,0,0,0 11,0,15,0 40,12,-1,0 23,1,13,14 10,0,0,0 \
        11,2,26,0 10,0,0,0 \
        31,17,0,0 40,18,21,0 22,0,19,20 10,0,0,0 10,1,0,0 40,22,-1,0 22,0,23,24 10,0,0,0 \
        11,0,25,0 10,0,0,0 10,0,0,0";
    assert_eq!(refused(rows), (7, 16));
    let without = rows
        .replace("22,0,23,24", "22,2,23,24")
        .replace("11,0,25,0", "11,2,25,0");
    assert_eq!(refused(&without), (8, 6));
}

#[test]
fn the_lowest_par_is_by_row_and_not_by_text() {
    let rows = "1,1,0,0 30,2,0,0 40,7,3,0 40,4,-1,0 31,5,0,0 40,10,6,0 40,11,-1,0 \
        31,8,0,0 40,12,9,0 40,13,-1,0 22,0,14,15 22,0,16,17 22,0,18,19 22,0,20,21 \
        10,0,0,0 10,0,0,0 10,0,0,0 10,0,0,0 10,0,0,0 10,0,0,0 10,0,0,0 10,0,0,0";
    assert_eq!(refused(rows), (7, 4));
}
