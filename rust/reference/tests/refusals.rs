//! The refusals: numbers, places and their order, with the examples of the open points.

mod common;
use common::{print, refusal_of, refused, refused_bytes, refused_numbers, table};
use reference::{answer_bytes, BUDGET_LIMIT, BUFFER_LENGTHS};

/// A table of SKIP alone.
const SKIP: &[u8] = b"kind,a,b,c\n21,0,0,0\n";

#[test]
fn lent_buffers_come_first() {
    for short in 0..7 {
        let mut lengths = BUFFER_LENGTHS;
        lengths[short] -= 1;
        let overlong = vec![b'x'; 40_000];
        assert_eq!(
            refusal_of(&answer_bytes(&overlong, b"", &[], u64::MAX, lengths)),
            (1, 0)
        );
        lengths[short] += 2;
        assert_eq!(
            refusal_of(&answer_bytes(SKIP, b"\n", &[], 0, lengths)),
            (0, 0)
        );
    }
}

#[test]
fn lines_of_a_table() {
    assert_eq!(refused_bytes(b"", b"\n"), (2, 1));
    assert_eq!(refused_bytes(b"kind,a,b,c\n", b"\n"), (5, 0));
    assert_eq!(refused_bytes(b"kind,a,b,c", b"\n"), (2, 1));
    assert_eq!(refused_bytes(b"kind,a,b,c\n21,0,0,0", b"\n"), (2, 2));
    assert_eq!(refused_bytes(b"kind,a,b,c\n21,0,0,0\n\n", b"\n"), (2, 3));
    assert_eq!(refused_bytes(b"kind,a,b,c\r\n21,0,0,0\r\n", b"\n"), (2, 1));
    assert_eq!(refused_bytes(b"kind,a,b,c\n21,0,0\n", b"\n"), (2, 2));
    assert_eq!(refused_bytes(b"kind,a,b,c\n21,0,0,0,0\n", b"\n"), (2, 2));
    assert_eq!(refused_bytes(b"kind,a,b,c\n21,0,,0\n", b"\n"), (2, 2));
    assert_eq!(refused_bytes(SKIP, b"\n"), (0, 0));
}

#[test]
fn overlong_table_is_2_at_0() {
    let mut bytes = table("");
    while bytes.len() + 9 <= 32_768 {
        bytes.extend(b"21,0,0,0\n");
    }
    bytes.resize(32_768, b'1');
    assert_eq!(refused_bytes(&bytes, b"\n"), (3, 1_024));
    bytes.push(b'\n');
    assert_eq!(refused_bytes(&bytes, b"\n"), (2, 0));
}

/// A table of this many rows, with another line in place of one of them.
fn rows_with(count: usize, line: usize, text: &str) -> Vec<u8> {
    let mut lines = vec!["kind,a,b,c\n"];
    lines.resize(count + 1, "21,0,0,0\n");
    if line > 0 {
        lines[line - 1] = text;
    }
    lines.concat().into_bytes()
}

#[test]
fn of_2_and_3_the_earlier_line_wins() {
    assert_eq!(refused_bytes(&rows_with(1_025, 0, ""), b"\n"), (3, 1_024));
    assert_eq!(
        refused_bytes(&rows_with(1_026, 1_027, "x\n"), b"\n"),
        (3, 1_024)
    );
    assert_eq!(
        refused_bytes(&rows_with(1_025, 1_026, "x\n"), b"\n"),
        (2, 1_026)
    );
    assert_eq!(
        refused_bytes(&rows_with(1_025, 1_026, "\n"), b"\n"),
        (2, 1_026)
    );
    assert_eq!(
        refused_bytes(&rows_with(1_025, 1_026, "21,0,0,0"), b"\n"),
        (2, 1_026)
    );
    assert_eq!(
        refused_bytes(&rows_with(1_100, 700, "x\n"), b"\n"),
        (2, 700)
    );
    assert_eq!(refused_bytes(&rows_with(1_100, 1, "x\n"), b"\n"), (2, 1));
}

#[test]
fn rows_lent_as_numbers() {
    assert_eq!(refused_numbers(&[]), (5, 0));
    assert_eq!(refused_numbers(&[21, 0, 0, 0]), (0, 0));
    assert_eq!(refused_numbers(&[21, 0, 0, 0, 0]), (3, 1));
    assert_eq!(refused_numbers(&[0; 3]), (3, 0));
    assert_eq!(refused_numbers(&[0; 4_097]), (3, 1_024));
    assert_eq!(refused_numbers(&[0; 4_100]), (3, 1_024));
    assert_eq!(refused_numbers(&[0; 9_001]), (3, 1_024));
    assert_eq!(refused_numbers(&[0; 4_096]), (4, 0));
}

#[test]
fn kinds_and_fields_are_4() {
    for (rows, place) in [
        ("25,0,0,0", 0),
        ("21,0,0,0 1,1,0,0", 1),
        ("22,1,2,3 1,1,0,0 10,0,0,0 10,5,0,0", 0),
        ("1,0,0,0 21,0,0,0", 0),
        ("1,65,0,0 21,0,0,0", 0),
        ("1,1,1,0 21,0,0,0", 0),
        ("2,2,1,0 21,0,0,0", 0),
        ("2,2,2,0 21,0,0,0", 0),
        ("2,1,3,0 21,0,0,0", 0),
        ("2,1,0,1 21,0,0,0", 0),
        ("2,1,1,1 21,0,0,0", 0),
        ("2,1,2,257 21,0,0,0", 0),
        ("2,1,2,-1 21,0,0,0", 0),
        ("21,0,0,7", 0),
        ("33,-1,1,0 21,0,0,7", 1),
        ("33,1,2,0 12,3,3,0 21,0,0,0 10,1,0,0", 1),
        ("33,1,2,0 12,2,3,0 21,0,0,0 10,1,0,0", 1),
        ("1,1,0,0 33,2,3,0 12,2,2,0 21,0,0,0", 2),
        ("1,1,0,0 33,2,3,0 12,2,0,0 21,0,0,0", 2),
        ("1,1,0,0 33,2,3,0 12,2,1,0 21,0,0,0", 2),
        ("33,1,2,0 12,2,3,0 21,0,0,0 14,0,0,0", 1),
        ("33,1,2,0 13,16,3,4 21,0,0,0 10,1,0,0 10,1,0,0", 1),
        ("2,1,0,0 22,0,2,3 10,0,0,0 10,0,0,0", 1),
        ("2,1,1,0 24,0,2,3 10,0,0,0 10,0,0,0", 1),
        ("2,1,2,0 1,1,0,0 23,0,3,4 10,0,0,0 11,1,5,0 10,0,0,0", 2),
        ("1,1,0,0 22,-1,2,3 10,0,0,0 10,0,0,0", 1),
    ] {
        assert_eq!(refused(rows), (4, place), "{rows}");
    }
}

#[test]
fn references_are_5() {
    for (rows, place) in [
        ("33,-1,1,0 21,0,0,0", 0),
        ("30,0,0,0", 0),
        ("30,-2,0,0", 0),
        ("30,1,0,0", 0),
        ("1,1,0,0", 1),
        ("30,1,0,0 40,2,-1,0 33,3,4,0 12,0,2,0 21,0,0,0", 3),
        ("33,1,2,0 13,0,3,4 21,0,0,0 12,0,1,0 10,1,0,0", 3),
        ("33,1,2,0 12,0,1,0 21,0,0,0", 1),
        ("33,1,2,0 12,2,-1,0 21,0,0,0", 1),
        ("33,1,2,0 12,2,-2,0 21,0,0,0", 1),
        ("33,1,2,0 12,2,3,0 21,0,0,0", 1),
        // GIVEN of an element in a lower row, to which the WHILE refers.
        ("1,1,0,0 33,2,3,0 11,0,4,0 21,0,0,0 12,2,2,0", 4),
        ("33,1,2,0 13,0,3,3 21,0,0,0 10,1,0,0", 3),
        ("21,0,0,0 10,1,0,0", 1),
        ("10,1,0,0", 0),
        ("34,1,0,0 42,2,-1,3 21,0,0,0 21,0,0,0", 1),
        ("30,1,0,0 40,2,3,0 21,0,0,0 41,4,-1,5 21,0,0,0 10,1,0,0", 1),
    ] {
        assert_eq!(refused(rows), (5, place), "{rows}");
    }
}

#[test]
fn declarations_that_pass_a_limit_are_6() {
    let cells = "1,64,0,0 ".repeat(4);
    assert_eq!(refused(&format!("{cells} 21,0,0,0")), (0, 0));
    assert_eq!(refused(&format!("{cells} 1,1,0,0 21,0,0,0")), (6, 4));
    let elements = "2,64,0,0 ".repeat(4);
    assert_eq!(refused(&format!("{elements} 21,0,0,0")), (0, 0));
    assert_eq!(refused(&format!("{elements} 2,1,2,0 21,0,0,0")), (6, 4));
    let outputs = "2,1,2,0 ".repeat(8);
    assert_eq!(refused(&format!("{outputs} 21,0,0,0")), (0, 0));
    assert_eq!(refused(&format!("{outputs} 2,1,2,0 21,0,0,0")), (6, 8));
    assert_eq!(
        refused(&format!("{} 21,0,0,0", "2,1,1,0 ".repeat(9))),
        (6, 8)
    );
    let full = "2,1,2,256 ".repeat(4);
    assert_eq!(refused(&format!("{full} 2,1,2,0 21,0,0,0")), (0, 0));
    assert_eq!(refused(&format!("{full} 2,1,2,1 21,0,0,0")), (6, 4));
}

/// A table of one input from the host in row 0 to a variable in row 1.
const ONE_CHANNEL: &str = "2,1,1,0 1,1,0,0 23,0,3,4 10,0,0,0 11,1,5,0 10,0,0,0";

#[test]
fn sheets() {
    for (sheet, place) in [
        ("", 1),
        ("0", 1),
        ("\n", 1),
        ("00\n", 1),
        (" 0\n", 1),
        ("0\r\n", 1),
        ("0\n1", 2),
        ("0\n1,2\n", 2),
        ("0\n01\n", 2),
        ("0\n1\n=\n", 3),
        ("0\n1\n-0\n", 3),
        ("0\n1\n\n2147483648\n", 4),
    ] {
        let answer = refused_bytes(&table(ONE_CHANNEL), sheet.as_bytes());
        assert_eq!(answer, (10, place), "{sheet:?}");
    }
    for sheet in ["0\n", "0\n\n", "0\n1\n\n-2147483648\n"] {
        assert_eq!(
            refused_bytes(&table(ONE_CHANNEL), sheet.as_bytes()),
            (0, 0),
            "{sheet:?}"
        );
    }
}

#[test]
fn sheets_without_channels_and_with_two() {
    assert_eq!(refused_bytes(SKIP, b""), (10, 1));
    assert_eq!(refused_bytes(SKIP, b"\n\n"), (10, 2));
    assert_eq!(refused_bytes(SKIP, b"0\n"), (10, 1));
    let two = table("2,1,1,0 2,1,1,0 21,0,0,0");
    assert_eq!(refused_bytes(&two, b"0,1\n,\n1,\n,2\n3,4\n"), (0, 0));
    assert_eq!(refused_bytes(&two, b"1,0\n"), (10, 1));
    assert_eq!(refused_bytes(&two, b"0,1\n\n"), (10, 2));
    assert_eq!(refused_bytes(&two, b"0,1\n1\n"), (10, 2));
    assert_eq!(refused_bytes(&two, b"0,1\n1,2,3\n"), (10, 2));
}

#[test]
fn sheets_at_the_limits() {
    let lines = |count: usize| format!("0\n{}", "1\n".repeat(count));
    let table = table(ONE_CHANNEL);
    assert_eq!(refused_bytes(&table, lines(128).as_bytes()), (0, 0));
    assert_eq!(refused_bytes(&table, lines(129).as_bytes()), (10, 130));
    assert_eq!(refused_bytes(&table, lines(300).as_bytes()), (10, 130));
    assert_eq!(refused_bytes(&table, &[b'1'; 16_384]), (10, 1));
    assert_eq!(refused_bytes(&table, &[b'1'; 16_385]), (10, 0));
}

#[test]
fn budget_comes_last() {
    let above = BUDGET_LIMIT + 1;
    let answer = |table: &[u8], sheet: &[u8], budget| {
        refusal_of(&answer_bytes(table, sheet, &[], budget, BUFFER_LENGTHS))
    };
    assert_eq!(answer(SKIP, b"\n", above), (11, 0));
    assert_eq!(answer(SKIP, b"\n", u64::MAX), (11, 0));
    assert_eq!(answer(SKIP, b"\n", BUDGET_LIMIT), (0, 0));
    assert_eq!(answer(SKIP, b"", above), (10, 1));
    assert_eq!(answer(b"", b"", above), (2, 1));
}

#[test]
fn the_line_between_table_and_sheet() {
    use reference::printing::split_input;
    assert_eq!(split_input(b"a\n=\nb\n=\n"), (&b"a\n"[..], &b"b\n=\n"[..]));
    assert_eq!(split_input(b"a\n=\r\nb\n"), (&b"a\n=\r\nb\n"[..], &b""[..]));
    assert_eq!(split_input(b"a\n="), (&b"a\n="[..], &b""[..]));
    assert_eq!(split_input(b"=\nb"), (&b""[..], &b"b"[..]));
    assert_eq!(split_input(b"a=\nb"), (&b"a=\nb"[..], &b""[..]));
    assert_eq!(print("21,0,0,0", ""), "refused,10,1,0\n");
}
