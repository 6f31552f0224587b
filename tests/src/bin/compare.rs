//! compare PROGRAM [--seed S] [--count N] [--patience SECONDS] [--checks | --unifications | --listings]
//!
//! Runs PROGRAM and the second program on generated tables, prints the first tables on which they differ, and ends in
//! 'N passed, M failed'. PROGRAM prints listings as document 01's program `list` does, or with a flag the answers to
//! lines as this project's program `examples` does: each table is checked, some of its nodes are unified, or it is listed
//! with several numbers of words lent.

use second::arguments::Arguments;
use second::comparison::{compare_checks, compare_listings, compare_printed, compare_unifications, Program};
use std::process::ExitCode;

fn main() -> ExitCode {
    let flags = ["--checks", "--unifications", "--listings"];
    let arguments = Arguments::of_process(&flags).filter(|arguments| arguments.programs.len() == 1);
    let Some(Arguments { mut programs, seed, count, patience, flag }) = arguments else {
        eprintln!("usage: compare PROGRAM [--seed S] [--count N] [--patience SECONDS] [{}]", flags.join(" | "));
        return ExitCode::from(2);
    };
    let program = Program { path: programs.remove(0), patience };
    let counted = match flag {
        Some("--checks") => compare_checks(&program, seed, count),
        Some("--unifications") => compare_unifications(&program, seed, count),
        Some("--listings") => compare_listings(&program, seed, count),
        _ => compare_printed(&program, seed, count),
    };
    println!("{} passed, {} failed", counted.passed, counted.failed);
    if counted.failed == 0 {
        ExitCode::SUCCESS
    } else {
        ExitCode::FAILURE
    }
}
