//! A program held against this one on generated tables.

use crate::generator::{self, Made};
use crate::lengths::listings;
use crate::lines::Question;
use crate::listing::{by_algorithm_1, by_choices};
use crate::operations::{printed, words_of, LENT};
use crate::pairs::unifications;
use crate::table::read;
use crate::tally::Tally;
use std::io::{self, Read, Write};
use std::os::unix::process::ExitStatusExt;
use std::path::PathBuf;
use std::process::{Child, Command, ExitStatus, Stdio};
use std::rc::Rc;
use std::sync::mpsc;
use std::thread;
use std::time::{Duration, Instant};

/// How often a program may give no answer before it is not run any more.
const MOST_UNANSWERED: usize = 3;

/// How many differences are printed, at most.
const SHOWN: usize = 10;

/// How many tables, or questions about tables, passed and failed.
#[derive(Clone, Copy, Debug, Default, PartialEq, Eq)]
pub struct Count {
    pub passed: usize,
    pub failed: usize,
}

impl Count {
    /// Counts a table, or a question about it, and prints the first differences.
    pub fn add(&mut self, made: &Made, difference: Option<String>) {
        let Some(difference) = difference else {
            self.passed += 1;
            return;
        };
        self.failed += 1;
        if self.failed <= SHOWN {
            println!("{}\n{difference}", made.shown());
        }
    }
}

/// Runs a program that prints listings on generated tables, prints differences, and prints what the tables were.
pub fn compare_printed(program: &Program, seed: u64, count: u64) -> Count {
    let mut counted = Count::default();
    let mut tally = Tally::default();
    let mut by_both_modes = 0;
    let mut unanswered = 0;
    for index in 0..count {
        let made = generator::make(seed, index);
        let expected = printed(&made.input);
        tally.add(&made, &expected);
        let mut differences = Vec::new();
        let output = if unanswered < MOST_UNANSWERED { program.run(&made.input) } else { Err("not tried".to_string()) };
        match output {
            Ok(output) => differences.extend(difference(&expected, &String::from_utf8_lossy(&output))),
            Err(why) => {
                unanswered = MOST_UNANSWERED.min(unanswered + 1);
                differences.push(why);
            }
        }
        let modes = modes_agree(&made.input);
        by_both_modes += usize::from(modes.is_some());
        if modes == Some(false) {
            differences.push("the two modes of the second program differ".to_string());
        }
        counted.add(&made, (!differences.is_empty()).then(|| differences.join("\n")));
    }
    print!("{tally}");
    println!("{by_both_modes:6} listed by both modes of the second program");
    counted
}

/// Whether the two modes of this program agree, if both can run.
pub fn modes_agree(input: &[u8]) -> Option<bool> {
    let problem = read(&words_of(input).ok()?).ok()?;
    let listing = by_algorithm_1(&problem, LENT)?;
    Some(listing == by_choices(&problem, LENT))
}

/// The most bytes of lines that are given to a program at once.
const MOST_LINES: usize = 65_000;

/// Runs a program that checks tables, each a line, on those generated tables that are whole words, and prints what they
/// were.
pub fn compare_checks(program: &Program, seed: u64, count: u64) -> Count {
    let check = |made: &Made| made.words().map(|table| Question::check(made.index.to_string(), table));
    compare_answers(program, seed, count, |made| check(made).into_iter().collect())
}

/// Runs a program that unifies two nodes of a table, each a line, on pairs of nodes of generated tables, and prints what
/// the tables were.
pub fn compare_unifications(program: &Program, seed: u64, count: u64) -> Count {
    compare_answers(program, seed, count, unifications)
}

/// Runs a program that lists tables with some words lent, each a line, on generated tables, and prints what they were.
pub fn compare_listings(program: &Program, seed: u64, count: u64) -> Count {
    compare_answers(program, seed, count, listings)
}

/// A question about a generated table as a line, and the line that answers it.
struct Asked {
    made: Rc<Made>,
    line: String,
    answered: String,
}

fn compare_answers(program: &Program, seed: u64, count: u64, questions: impl Fn(&Made) -> Vec<Question>) -> Count {
    let mut counted = Count::default();
    let mut tally = Tally::default();
    let mut batch: Vec<Asked> = Vec::new();
    let mut size = 0;
    for made in (0..count).map(|index| Rc::new(generator::make(seed, index))) {
        let questions = questions(&made);
        if !questions.is_empty() {
            tally.table(&made);
        }
        for question in questions {
            let answer = question.answer();
            tally.answer(&answer.answer);
            let line = question.line();
            if size + line.len() > MOST_LINES {
                compare_batch(program, &batch, &mut counted);
                batch.clear();
                size = 0;
            }
            size += line.len();
            batch.push(Asked { made: made.clone(), line, answered: question.answered(&answer) });
        }
    }
    compare_batch(program, &batch, &mut counted);
    print!("{tally}");
    counted
}

fn compare_batch(program: &Program, batch: &[Asked], counted: &mut Count) {
    let lines: String = batch.iter().map(|asked| asked.line.as_str()).collect();
    let output = program.run(lines.as_bytes()).map(|output| String::from_utf8_lossy(&output).to_string());
    let mut rest = output.as_deref().unwrap_or_default();
    for (i, asked) in batch.iter().enumerate() {
        // The answers to the last line are all that is left.
        let end = if i + 1 < batch.len() { rest.find('\n').map_or(rest.len(), |at| at + 1) } else { rest.len() };
        let (found, others) = rest.split_at(end);
        rest = others;
        let difference = output.as_ref().map_or_else(|why| Some(why.clone()), |_| difference(&asked.answered, found));
        counted.add(&asked.made, difference);
    }
}

/// A program to compare, and how long it may take for one input.
pub struct Program {
    pub path: PathBuf,
    pub patience: Duration,
}

impl Program {
    /// What the program prints for an input, if it ends by itself and in time.
    fn run(&self, input: &[u8]) -> Result<Vec<u8>, String> {
        let end = Instant::now() + self.patience;
        let command = Command::new(&self.path).stdin(Stdio::piped()).stdout(Stdio::piped()).spawn();
        let mut child = command.map_err(|error| format!("{}: {error}", self.path.display()))?;
        let mut stdin = child.stdin.take().expect("piped");
        let mut stdout = child.stdout.take().expect("piped");
        let input = input.to_vec();
        // A program need not read all of a long input, so a failed write is no fault.
        thread::spawn(move || stdin.write_all(&input));
        let (sender, receiver) = mpsc::channel();
        thread::spawn(move || {
            let mut output = Vec::new();
            let read = stdout.read_to_end(&mut output);
            sender.send(read.map(|_| output))
        });
        let output = receiver.recv_timeout(self.patience);
        let status = wait_until(&mut child, end).map_err(|error| error.to_string())?;
        match (output, status) {
            (Err(_), _) | (_, None) => Err(format!("no end in {} seconds", self.patience.as_secs())),
            (Ok(output), Some(status)) => match status.signal() {
                Some(signal) => Err(format!("ended by signal {signal}")),
                None => output.map_err(|error| error.to_string()),
            },
        }
    }
}

/// How a process ends, or none where it had to be ended.
fn wait_until(child: &mut Child, end: Instant) -> io::Result<Option<ExitStatus>> {
    loop {
        if let Some(status) = child.try_wait()? {
            return Ok(Some(status));
        }
        if Instant::now() >= end {
            child.kill()?;
            child.wait()?;
            return Ok(None);
        }
        thread::sleep(Duration::from_micros(50));
    }
}

/// The first line in which two texts differ.
fn difference(expected: &str, found: &str) -> Option<String> {
    let line = |line: Option<&str>| line.map_or("no line".to_string(), |line| format!("'{line}'"));
    let (mut of_expected, mut of_found) = (expected.split('\n'), found.split('\n'));
    for number in 1.. {
        match (of_expected.next(), of_found.next()) {
            (None, None) => break,
            (a, b) if a == b => {}
            (a, b) => return Some(format!("line {number}, expected: {}\nline {number}, found: {}", line(a), line(b))),
        }
    }
    None
}
