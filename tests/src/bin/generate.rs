//! generate [--seed S] [--count N] [--tables]
//!
//! Makes the tables that `compare` compares on, and prints what they were; with --tables also each of them in decimal.

use second::arguments::Arguments;
use second::generator;
use second::operations::printed;
use second::tally::Tally;
use std::process::ExitCode;

fn main() -> ExitCode {
    let arguments = Arguments::of_process(&["--tables"]).filter(|arguments| arguments.programs.is_empty());
    let Some(Arguments { seed, count, flag: tables, .. }) = arguments else {
        eprintln!("usage: generate [--seed S] [--count N] [--tables]");
        return ExitCode::from(2);
    };
    let mut tally = Tally::default();
    for index in 0..count {
        let made = generator::make(seed, index);
        if tables.is_some() {
            println!("{}", made.shown());
        }
        tally.add(&made, &printed(&made.input));
    }
    print!("{tally}");
    ExitCode::SUCCESS
}
