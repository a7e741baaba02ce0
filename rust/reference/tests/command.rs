//! The commands and their flags.

use std::io::Write;
use std::process::{Command, Stdio};

/// Runs the reference program: its exit code and what it prints.
fn reference(flags: &str, input: &str) -> (i32, String) {
    let mut child = Command::new(env!("CARGO_BIN_EXE_reference"))
        .args(flags.split_whitespace())
        .stdin(Stdio::piped())
        .stdout(Stdio::piped())
        .stderr(Stdio::null())
        .spawn()
        .expect("the program starts");
    if let Some(stdin) = child.stdin.as_mut() {
        // A program that refuses its flags may not read.
        let _ = stdin.write_all(input.as_bytes());
    }
    let output = child.wait_with_output().expect("the program ends");
    let text = String::from_utf8(output.stdout).expect("text");
    (output.status.code().unwrap_or(-1), text)
}

/// A table that sets x and writes it to the host.
const TABLE: &str = "kind,a,b,c\n1,1,0,0\n2,1,2,2\n30,3,0,0\n40,5,4,0\n40,6,-1,0\n22,0,7,8\n\
    24,1,9,10\n10,0,0,0\n10,4,0,0\n10,0,0,0\n11,0,11,0\n10,0,0,0\n";

/// What it prints when it has ended.
const ENDED: &str = "what,name,at,value\nended,0,0,2\nvar,0,0,4\nout,1,0,4\n";

#[test]
fn without_flags() {
    assert_eq!(
        reference("", &format!("{TABLE}=\n\n")),
        (0, ENDED.to_string())
    );
    assert_eq!(reference("", TABLE), (0, "refused,10,1,0\n".to_string()));
}

#[test]
fn budget_lengths_and_choices() {
    let input = format!("{TABLE}=\n\n");
    let spent = "what,name,at,value\nspent,0,0,1\nvar,0,0,4\n";
    assert_eq!(
        reference("--budget 1 --choices 7,65535", &input),
        (0, spent.to_string())
    );
    assert_eq!(reference("--budget 65537", &input).1, "refused,11,0,0\n");
    assert_eq!(
        reference("--budget 18446744073709551615", &input).1,
        "refused,11,0,0\n"
    );
    assert_eq!(
        reference("--lengths 256,256,1024,8,1024,8,1023", &input).1,
        "refused,1,0,0\n"
    );
    assert_eq!(
        reference("--lengths 999,256,1024,8,1024,8,1024", &input).1,
        ENDED
    );
}

#[test]
fn full() {
    let more = "cell,0,0,4\nmark,0,0,1\nstate,0,0,0\nstate,1,0,0\nstate,2,0,2\nstate,3,0,0\n\
        state,4,0,0\nstate,5,0,2\nstate,6,0,2\nstate,7,0,0\nstate,8,0,0\nstate,9,0,0\n\
        state,10,0,0\nstate,11,0,0\nstrip,1,0,4\nstrip,1,1,0\nomark,1,0,1\n\
        omark,1,1,0\ncount,1,0,1\n";
    let input = format!("{TABLE}=\n\n");
    assert_eq!(reference("--full", &input).1, format!("{ENDED}{more}"));
    let reads = "kind,a,b,c\n2,1,1,0\n21,0,0,0\n=\n0\n5\n";
    let wanted = "what,name,at,value\nended,0,0,0\nstate,0,0,0\nstate,1,0,2\nplace,0,0,0\n";
    assert_eq!(reference("--full", reads).1, wanted);
}

#[test]
fn numbers() {
    assert_eq!(
        reference("--numbers", "21,0,0,0\n=\n\n").1,
        "what,name,at,value\nended,0,0,0\n"
    );
    assert_eq!(
        reference("--numbers", "21\n0,0\n0\n7\n=\n\n").1,
        "refused,3,1,0\n"
    );
    assert_eq!(reference("--numbers", "").1, "refused,5,0,0\n");
    assert_eq!(reference("--numbers", "21,0,0,00\n").0, 2);
}

#[test]
fn check() {
    assert_eq!(
        reference("--check --budget 70000", TABLE).1,
        "accepted,0,0,0\n"
    );
    assert_eq!(reference("--check", "").1, "refused,2,1,0\n");
    assert_eq!(
        reference("--check --numbers", "10,1,0,0").1,
        "refused,5,0,0\n"
    );
}

#[test]
fn pairs() {
    // PAR(x := 1, SKIP, x := 2)
    let clash = "1,1,0,0\n31,2,0,0\n40,3,6,0\n22,0,4,5\n10,0,0,0\n10,1,0,0\n40,7,8,0\n21,0,0,0\n\
        40,9,-1,0\n22,0,10,11\n10,0,0,0\n10,2,0,0\n";
    let bytes = format!("kind,a,b,c\n{clash}");
    assert_eq!(reference("--check --pairs", &bytes).1, "refused,7,1,2\n");
    assert_eq!(
        reference("--numbers --pairs --check", clash).1,
        "refused,7,1,2\n"
    );
    assert_eq!(reference("--check", &bytes).1, "refused,7,1,0\n");
    assert_eq!(reference("--check --pairs", TABLE).1, "accepted,0\n");
    let clean = bytes.replace("22,0,10,11\n10,0,0,0\n10,2,0,0\n", "20,0,0,0\n");
    assert_eq!(reference("--check --pairs", &clean).1, "accepted,9\n");
    let malformed = format!("{bytes}21,0,0\n");
    assert_eq!(
        reference("--check --pairs", &malformed).1,
        "refused,2,14,0\n"
    );
    assert_eq!(reference("--pairs", TABLE), (2, String::new()));
}

/// The text of the run on paper, and the beginning of the table that it is read to.
const TEXT: &str = "HOSTIN a:\nHOSTOUT 4 b:\nINT x:\nSEQ\n  a ? x\n  b ! x + 5\n";
const READ: &str = "kind,a,b,c\n2,1,1,0\n2,1,2,4\n1,1,0,0\n30,4,0,0\n";

#[test]
fn texts() {
    let input = format!("{TEXT}=\n0\n120\n");
    let ended = "what,name,at,value\nended,0,0,2\nvar,2,0,120\nout,1,0,125\n";
    assert_eq!(reference("--text", &input), (0, ended.to_string()));
    assert_eq!(
        reference("--text --ready --budget 1", &input).1,
        "ready,1\n"
    );
    let trace = "step,1,1,5\nstep,2,1,10\nready,0\n";
    assert_eq!(reference("--text --trace", &input).1, trace);
    assert_eq!(
        reference("--text --explore 99", &input).1,
        "agree,1,2,ended\n"
    );
    assert_eq!(reference("--check --text", TEXT).1, "accepted,0,0,0\n");
    assert_eq!(reference("--check --text --pairs", TEXT).1, "accepted,0\n");
    assert_eq!(reference("--check --text", TABLE).1, "refused,12,1,0\n");
    assert_eq!(reference("--check", TEXT).1, "refused,2,1,0\n");
    assert!(reference("--read", &input).1.starts_with(READ));
    let table = reference("--read", TEXT).1;
    assert_eq!(reference("", &format!("{table}=\n0\n120\n")).1, ended);
    assert_eq!(reference("--read", "").1, "refused,12,1,0\n");
    assert_eq!(reference("--read", "x := 1\n").1, "refused,13,1,0\n");
    assert_eq!(reference("--read --room 4095", TEXT).1, "refused,1,0,0\n");
    assert_eq!(reference("--read --room 4096", TEXT).1, table);
    let short = "--text --lengths 255,256,1024,8,1024,8,1024";
    assert_eq!(reference(short, "no text").1, "refused,1,0,0\n");
    assert_eq!(reference("--text --numbers", TEXT), (2, String::new()));
    assert_eq!(reference("--read --numbers", TEXT), (2, String::new()));
}

#[test]
fn ready_and_trace() {
    let input = format!("{TABLE}=\n\n");
    assert_eq!(reference("--ready", &input).1, "ready,0\n");
    assert_eq!(reference("--ready --budget 1", &input).1, "ready,1\n");
    assert_eq!(reference("--ready", TABLE).1, "refused,10,1,0\n");
    let trace = "step,1,1,5\nstep,2,1,6\nready,0\n";
    assert_eq!(reference("--trace", &input).1, trace);
    assert_eq!(
        reference("--trace --budget 1", &input).1,
        "step,1,1,5\nready,1\n"
    );
    assert_eq!(
        reference("--trace --lists 65536,65535", &input).1,
        "refused,1,0,0\n"
    );
    let skip = "21,0,0,0\n=\n\n";
    assert_eq!(reference("--numbers --trace", skip).1, "ready,0\n");
}

#[test]
fn explore() {
    assert_eq!(
        reference("--explore 99", &format!("{TABLE}=\n\n")).1,
        "agree,1,2,ended\n"
    );
    assert_eq!(
        reference("--explore 2", &format!("{TABLE}=\n\n")).1,
        "open,2,2,limit\n"
    );
    let two = "kind,a,b,c\n1,2,0,0\n31,2,0,0\n40,4,3,0\n40,5,-1,0\n22,0,6,7\n22,0,8,9\n\
        10,0,0,0\n10,1,0,0\n10,1,0,0\n10,1,0,0\n=\n\n";
    assert_eq!(reference("--explore 99", two).1, "agree,2,2,ended\n");
    let again = "kind,a,b,c\n33,1,2,0\n10,1,0,0\n21,0,0,0\n=\n\n";
    assert_eq!(reference("--explore 99", again).1, "open,1,0,loop\n");
    // An ALT of 1 & SKIP with SKIP and 1 & SKIP with STOP.
    let state = "kind,a,b,c\n34,1,0,0\n42,3,2,4\n42,5,-1,6\n21,0,0,0\n43,7,8,0\n20,0,0,0\n\
        43,9,10,0\n10,1,0,0\n21,0,0,0\n10,1,0,0\n21,0,0,0\n=\n\n";
    assert_eq!(reference("--explore 99", state).1, "differ,1,1,state\n");
    // The same with an assignment in place of STOP.
    let length = "kind,a,b,c\n1,1,0,0\n34,2,0,0\n42,4,3,5\n42,6,-1,7\n21,0,0,0\n43,8,9,0\n\
        22,0,12,13\n43,10,11,0\n10,1,0,0\n21,0,0,0\n10,1,0,0\n21,0,0,0\n10,0,0,0\n10,3,0,0\n\
        =\n\n";
    assert_eq!(reference("--explore 99", length).1, "differ,2,1,length\n");
    assert_eq!(reference("--explore 99", TABLE).1, "refused,10,1,0\n");
}

#[test]
fn bad_flags_and_help() {
    for flags in [
        "--what",
        "--budget",
        "--budget x",
        "--choices 65536",
        "--lengths 256,256,1024,8,1024,8",
        "--lists 1",
        "--room",
        "x",
    ] {
        assert_eq!(reference(flags, ""), (2, String::new()), "{flags}");
    }
    let (code, help) = reference("--help", "");
    assert_eq!(code, 0);
    for flag in [
        "--budget",
        "--choices",
        "--lengths",
        "--numbers",
        "--text",
        "--read",
        "--room",
        "--full",
        "--ready",
        "--trace",
        "--lists",
        "--check",
        "--pairs",
        "--explore",
    ] {
        assert!(help.contains(flag), "{flag}");
    }
}

/// Writes inputs with `generate` and gives each to the reference program; tells what it printed.
fn generated(name: &str, flags: &[&str]) -> Vec<String> {
    let out = std::env::temp_dir().join(format!("generate-{}-{name}", std::process::id()));
    let status = Command::new(env!("CARGO_BIN_EXE_generate"))
        .args(["--seed", "5", "--count", "40", "--small"])
        .args(flags)
        .arg("--out")
        .arg(&out)
        .status()
        .expect("the program starts");
    assert!(status.success());
    let printed = (1..=40).map(|number| {
        let input = std::fs::read_to_string(out.join(format!("{number:06}.in")));
        let flags = std::fs::read_to_string(out.join(format!("{number:06}.args")));
        let (input, flags) = (input.unwrap_or_default(), flags.expect("flags"));
        assert_eq!(flags.lines().count(), 1, "{flags:?}");
        let (code, text) = reference(&flags, &input);
        assert_eq!((code, text.is_empty()), (0, false), "{number}");
        text
    });
    let printed = printed.collect();
    std::fs::remove_dir_all(&out).expect("the directory is there");
    printed
}

#[test]
fn generate_writes_inputs_and_flags() {
    generated("tables", &[]);
}

#[test]
fn generate_writes_texts() {
    let printed = generated("texts", &["--text"]);
    assert!(!printed.iter().any(|text| text.starts_with("refused,10,")));
    for begin in ["what,", "kind,", "accepted", "refused,12,", "refused,13,"] {
        assert!(
            printed.iter().any(|text| text.starts_with(begin)),
            "{begin}"
        );
    }
}
