//! The program itself: arguments, standard output and error, exit status.

use std::io::Write;
use std::process::{Command, Output, Stdio};

fn peer(arguments: &[&str], input: &[u8]) -> Output {
    let mut child = Command::new(env!("CARGO_BIN_EXE_peer"))
        .args(arguments)
        .stdin(Stdio::piped())
        .stdout(Stdio::piped())
        .stderr(Stdio::piped())
        .spawn()
        .expect("the program runs");
    let mut stdin = child.stdin.take().expect("it was piped");
    let input = input.to_vec();
    // A program that does not read its input is no failure of the test.
    let writer = std::thread::spawn(move || drop(stdin.write_all(&input)));
    let output = child.wait_with_output().expect("the program ends");
    writer.join().expect("the writer ends");
    output
}

fn text(bytes: &[u8]) -> &str {
    std::str::from_utf8(bytes).expect("the program prints ASCII")
}

#[test]
fn wrong_usage() {
    for arguments in [
        &[][..],
        &["play"],
        &["replay", "now"],
        &["examples", "now"],
        &["generate"],
        &["generate", "1"],
        &["generate", "1", "x"],
        &["generate", "-1", "5"],
        &["generate", "1", "2", "3"],
        &["count", "1"],
        &["rounds", "1"],
        &["rounds", "", "1"],
    ] {
        let output = peer(arguments, b"");
        assert_eq!(output.status.code(), Some(2), "{arguments:?}");
        assert!(text(&output.stderr).starts_with("usage: peer "));
        assert_eq!(text(&output.stdout), "");
    }
}

#[test]
fn replay_prints_and_is_quiet_otherwise() {
    let output = peer(&["replay"], b"cut 11 0 11 01\nno\n");
    assert_eq!(output.status.code(), Some(0));
    let packet = format!("0 2 1 0001{}\nbad line 2\n", "DD".repeat(9));
    assert_eq!(text(&output.stdout), packet);
    assert_eq!(text(&output.stderr), "");
}

#[test]
fn examples_print_what_is_right() {
    let right = "# example 1\nchecksum 313233343536373839 -> 2189\n";
    for given in [right, "# example 1\nchecksum 313233343536373839 -> 8921\n"] {
        let output = peer(&["examples"], given.as_bytes());
        assert_eq!(output.status.code(), Some(0));
        assert_eq!(text(&output.stdout), right);
        assert_eq!(text(&output.stderr), "");
    }
}

#[test]
fn generate_then_replay_and_count() {
    let script = peer(&["generate", "7", "20000"], b"").stdout;
    let replayed = peer(&["replay"], &script);
    let lines = text(&replayed.stdout).lines();
    let answers = lines.filter(|line| !line.starts_with("bad line ")).count();
    assert_eq!(answers, 20_000);
    let counted = peer(&["count"], &script);
    assert_eq!(text(&counted.stderr), "");
    assert_eq!(counted.status.code(), Some(0));
}

#[test]
fn count_fails_where_something_never_occurred() {
    let output = peer(&["count"], b"look 5\n");
    assert_eq!(output.status.code(), Some(1));
    assert!(text(&output.stdout).contains("look 1 1\n"));
    assert!(text(&output.stderr).contains("never: look 0\n"));
    assert!(text(&output.stderr).contains("never: event bad-line\n"));
}

#[test]
fn rounds_reports() {
    let output = peer(&["rounds", "3", "500"], b"");
    assert_eq!(output.status.code(), Some(0));
    let names: Vec<&str> = text(&output.stdout)
        .lines()
        .filter_map(|line| line.split(' ').next())
        .collect();
    assert_eq!(
        names,
        [
            "histories",
            "lost",
            "through",
            "high-first",
            "packets",
            "largest"
        ]
    );
}
