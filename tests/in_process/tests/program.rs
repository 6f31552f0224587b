//! The program itself, with the library that it is linked with.

use std::process::{Command, Output};

fn in_process(arguments: &[&str]) -> Output {
    Command::new(env!("CARGO_BIN_EXE_in_process")).args(arguments).output().expect("in_process runs")
}

#[test]
fn it_ends_in_a_count_of_calls() {
    for part in [&[][..], &["--checks"], &["--unifications"], &["--listings"]] {
        let output = in_process(&[&["--seed", "4", "--count", "40"], part].concat());
        let text = String::from_utf8_lossy(&output.stdout).to_string();
        let passed = text.lines().last().and_then(|line| line.strip_suffix(" passed, 0 failed")).expect("a count");
        assert!(passed.parse::<usize>().expect("a number") > 40);
        assert!(output.status.success());
    }
}

#[test]
fn wrong_arguments_are_refused() {
    for arguments in [&["a"][..], &["--count", "0"], &["--seed"], &["--unknown"], &["--checks", "--listings"]] {
        assert_eq!(in_process(arguments).status.code(), Some(2), "{arguments:?}");
    }
}
