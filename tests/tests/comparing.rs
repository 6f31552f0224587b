//! `compare` passes the second program itself, and finds each fault that is built into a copy of it.

use second::generator::make;
use std::fs;
use std::os::unix::fs::PermissionsExt;
use std::path::PathBuf;
use std::process::{Command, Output};

const SEED: u64 = 3;
const COUNT: &str = "600";

fn compare(program: &str, fault: &str, options: &[&str]) -> Output {
    let mut command = Command::new(env!("CARGO_BIN_EXE_compare"));
    command.args([program, "--seed", &SEED.to_string(), "--count", COUNT]).args(options).env("FAULT", fault);
    command.output().expect("compare runs")
}

fn last_line(output: &Output) -> String {
    let text = String::from_utf8_lossy(&output.stdout);
    text.lines().last().unwrap_or_default().to_string()
}

/// 'N passed, M failed', as numbers.
fn counts(output: &Output) -> (usize, usize) {
    let line = last_line(output);
    let (passed, failed) = line.split_once(" passed, ").expect("a tally");
    (passed.parse().unwrap(), failed.strip_suffix(" failed").expect("a tally").parse().unwrap())
}

#[track_caller]
fn finds(fault: &str, options: &[&str]) {
    let output = compare(env!("CARGO_BIN_EXE_faulty"), fault, options);
    let (passed, failed) = counts(&output);
    assert!(failed > 0, "{fault} is not found");
    assert!(passed > failed, "{fault} is to be rare: {passed} passed, {failed} failed");
    assert!(!output.status.success());
    let text = String::from_utf8_lossy(&output.stdout).to_string();
    assert!(text.contains("expected: ") && text.contains("found: "), "the difference is shown");
    // The first table that is shown is one that was made, in decimal.
    let (before, numbers) = text.lines().next().and_then(|line| line.split_once(" words: ")).expect("a table");
    let index = before.split(", table ").nth(1).and_then(|rest| rest.split(',').next()).expect("an index");
    let words: Vec<u32> = numbers.split(' ').map(|word| word.parse().expect("a word")).collect();
    assert_eq!(make(SEED, index.parse().expect("an index")).words(), Some(words));
}

#[track_caller]
fn agrees(program: &str, fault: &str, options: &[&str]) {
    let output = compare(program, fault, options);
    let (passed, failed) = counts(&output);
    assert_eq!(failed, 0);
    assert!(passed > 500);
    assert!(output.status.success());
}

#[test]
fn the_second_program_agrees_with_itself() {
    agrees(env!("CARGO_BIN_EXE_second"), "", &[]);
}

#[test]
fn a_copy_without_fault_agrees() {
    agrees(env!("CARGO_BIN_EXE_faulty"), "none", &[]);
}

/// The faults of a listing, with any words lent.
const FAULTS: [&str; 14] = [
    "dropped", "repeated", "swapped", "digits", "refusal", "finished", "full", "room", "last", "count", "bound",
    "word", "open", "struck",
];

#[test]
fn each_fault_of_a_program_that_lists_is_found() {
    FAULTS.iter().for_each(|fault| finds(fault, &[]));
}

#[test]
fn a_program_that_is_not_there_fails() {
    for options in [&[][..], &["--checks"], &["--unifications"], &["--listings"]] {
        let output = compare("no-such-program", "", options);
        assert_eq!(counts(&output).0, 0);
        assert!(!output.status.success());
    }
}

#[test]
fn checks_are_compared() {
    agrees(env!("CARGO_BIN_EXE_faulty"), "answers none", &["--checks"]);
    for fault in ["refusal", "more"] {
        finds(&format!("answers {fault}"), &["--checks"]);
    }
}

#[test]
fn unifications_are_compared() {
    agrees(env!("CARGO_BIN_EXE_faulty"), "answers none", &["--unifications"]);
    for fault in ["refusal", "lent", "refused", "occurs", "clash", "changed", "past", "word", "joined", "more"] {
        finds(&format!("answers {fault}"), &["--unifications"]);
    }
}

#[test]
fn listings_are_compared() {
    agrees(env!("CARGO_BIN_EXE_faulty"), "answers none", &["--listings"]);
    for fault in FAULTS.iter().chain(&["refused", "past", "part", "more"]) {
        finds(&format!("answers {fault}"), &["--listings"]);
    }
}

/// A program that does something else than to answer.
fn script(name: &str, line: &str) -> String {
    let path = PathBuf::from(env!("CARGO_TARGET_TMPDIR")).join(name);
    fs::write(&path, format!("#!/bin/sh\n{line}\n")).expect("a script");
    fs::set_permissions(&path, fs::Permissions::from_mode(0o755)).expect("a script");
    path.to_string_lossy().to_string()
}

#[track_caller]
fn fails_always(program: &str, patience: &str, why: &str) {
    let output = compare(program, "", &["--count", "20", "--patience", patience]);
    assert_eq!(counts(&output), (0, 20));
    assert!(!output.status.success());
    assert!(String::from_utf8_lossy(&output.stdout).contains(why));
}

#[test]
fn a_program_that_does_not_end_fails() {
    fails_always(&script("sleeps", "exec sleep 30"), "1", "no end in 1 seconds");
    fails_always(&script("closes", "exec 1>&-; exec sleep 30"), "1", "no end in 1 seconds");
}

#[test]
fn a_program_that_is_killed_fails() {
    fails_always(&script("killed", "kill -9 $$"), "20", "ended by signal 9");
}

#[test]
fn wrong_arguments_are_refused() {
    let two_modes = &["a", "--checks", "--unifications"];
    for arguments in [&[][..], &["a", "b"], &["a", "--count", "0"], &["a", "--seed"], &["a", "--unknown"], two_modes] {
        let output = Command::new(env!("CARGO_BIN_EXE_compare")).args(arguments).output().expect("compare runs");
        assert_eq!(output.status.code(), Some(2), "{arguments:?}");
    }
}

#[test]
fn generate_prints_what_it_makes() {
    let mut command = Command::new(env!("CARGO_BIN_EXE_generate"));
    let output = command.args(["--seed", "5", "--count", "300", "--tables"]).output().expect("generate runs");
    let text = String::from_utf8_lossy(&output.stdout).to_string();
    let lines: Vec<&str> = text.lines().collect();
    for index in 0..300 {
        assert_eq!(lines[index as usize], make(5, index).shown());
    }
    assert_eq!(lines[300], "   300 tables, of the families");
    let answers = lines.iter().skip_while(|line| !line.contains("answered")).skip(1);
    let counts = answers.map_while(|line| line.split_whitespace().next()?.parse::<usize>().ok());
    assert_eq!(counts.sum::<usize>(), 300);
}
