//! Runs the example programs, and compares what they print.
#![cfg(not(miri))]

use std::path::PathBuf;
use std::process::{Command, Output};

/// Runs an example, which cargo built beside this test.
fn run(name: &str, words: &[&str]) -> Output {
    let this = std::env::current_exe().unwrap();
    let program: PathBuf = this.parent().unwrap().with_file_name("examples").join(name);
    Command::new(program).args(words).output().unwrap()
}

fn printed(output: &Output) -> &str {
    std::str::from_utf8(&output.stdout).unwrap()
}

#[test]
fn lines_of_a_child_are_printed_and_its_status_is_kept() {
    let output = run("child_output", &["sh", "-c", "echo one; printf 'two'; exit 7"]);
    assert_eq!(printed(&output), "> one\n> two\nexit status: 7\n");
    assert_eq!(output.status.code(), Some(7));
}

#[test]
fn what_a_killed_child_wrote_is_printed() {
    let script = "i=0; while [ $i -lt 20000 ]; do echo $i; i=$((i + 1)); done; kill -9 $$";
    let output = run("child_output", &["sh", "-c", script]);
    let lines: String = (0..20_000).map(|it| format!("> {it}\n")).collect();
    assert_eq!(printed(&output), lines + "signal: 9 (SIGKILL)\n");
    assert_eq!(output.status.code(), Some(137));
}

#[test]
fn a_child_that_is_not_there_is_told() {
    let output = run("child_output", &["/no/such/command"]);
    assert_eq!(printed(&output), "");
    assert!(!output.status.success() && !output.stderr.is_empty());
    assert_eq!(run("child_output", &[]).status.code(), Some(2));
}

#[test]
fn a_protocol_is_tried_in_memory() {
    assert_eq!(printed(&run("duplex", &[])), "a pipe of bytes\none\n\n");
}

#[test]
fn the_same_under_tokio() {
    let wanted = "a request: 9\nanother, longer than the pipe: 29\n: 0\n";
    assert_eq!(printed(&run("tokio_duplex", &[])), wanted);
}

#[test]
fn two_machines_carry_bytes_the_end_and_a_break() {
    let wanted = "20000000 bytes came, as sent: true; send, receive, write: (true, true, true)\n\
        100000 bytes came, as sent: true; send, receive, write: (false, false, false)\n";
    assert_eq!(printed(&run("two_machines", &[])), wanted);
}
