//! The arguments of the programs that go over generated tables.

use std::path::PathBuf;
use std::time::Duration;

pub struct Arguments {
    /// The arguments that are no options.
    pub programs: Vec<PathBuf>,
    /// `--seed S`
    pub seed: u64,
    /// `--count N`, above 0
    pub count: u64,
    /// `--patience SECONDS`
    pub patience: Duration,
    /// The flag of the program that is given, at most one.
    pub flag: Option<&'static str>,
}

impl Arguments {
    /// The arguments of this process, or none where one is wrong.
    pub fn of_process(flags: &[&'static str]) -> Option<Arguments> {
        let mut read =
            Arguments { programs: vec![], seed: 1, count: 5000, patience: Duration::from_secs(20), flag: None };
        let mut arguments = std::env::args().skip(1);
        while let Some(argument) = arguments.next() {
            match argument.as_str() {
                "--seed" => read.seed = arguments.next()?.parse().ok()?,
                "--count" => read.count = arguments.next()?.parse().ok().filter(|&count| count > 0)?,
                "--patience" => read.patience = Duration::from_secs(arguments.next()?.parse().ok()?),
                option if option.starts_with('-') => {
                    let flag = flags.iter().copied().find(|&flag| flag == option)?;
                    if read.flag.replace(flag).is_some() {
                        return None;
                    }
                }
                program => read.programs.push(PathBuf::from(program)),
            }
        }
        Some(read)
    }
}
