//! in_process [--seed S] [--count N] [--checks | --unifications | --listings]
//!
//! Calls the library on N generated tables, prints the first calls that differ from the second program, and ends in
//! 'N passed, M failed', which counts calls. With a flag only one operation is called.

use in_process::comparison::Comparison;
use in_process::library::Linked;
use second::arguments::Arguments;
use second::comparison::Count;
use std::process::ExitCode;

/// An operation's flag, and the comparison of its calls.
type Part = (&'static str, fn(&mut Comparison, u64, u64));

const PARTS: [Part; 3] = [
    ("--checks", |comparison, seed, count| comparison.checks(seed, count)),
    ("--unifications", |comparison, seed, count| comparison.unifications(seed, count)),
    ("--listings", |comparison, seed, count| comparison.listings(seed, count)),
];

fn main() -> ExitCode {
    let flags = PARTS.map(|(flag, _)| flag);
    let arguments = Arguments::of_process(&flags).filter(|arguments| arguments.programs.is_empty());
    let Some(Arguments { seed, count, flag, .. }) = arguments else {
        eprintln!("usage: in_process [--seed S] [--count N] [{}]", flags.join(" | "));
        return ExitCode::from(2);
    };
    let mut counted = Count::default();
    for (name, compare) in PARTS.into_iter().filter(|&(name, _)| flag.is_none_or(|flag| flag == name)) {
        println!("comparing {}", name.trim_start_matches('-'));
        let mut comparison = Comparison::of(&Linked, counted);
        compare(&mut comparison, seed, count);
        print!("{}", comparison.tally);
        println!("{:6} calls with NULL", comparison.null);
        counted = comparison.counted;
    }
    println!("{} passed, {} failed", counted.passed, counted.failed);
    if counted.failed == 0 {
        ExitCode::SUCCESS
    } else {
        ExitCode::FAILURE
    }
}
