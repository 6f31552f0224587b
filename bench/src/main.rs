//! Times the listing of problem tables, beside other programs where they are named.
//!
//!     bench [--before PROGRAM] [--baseline PROGRAM [--ahead]] [--rounds N] [--lent WORDS] FOLDER
//!     bench --count WORDS CALLS <TABLE
//!
//! The second form lists a table so many times into so many lent words, in a warm loop, and prints the answer
//! (`Entries(K)`, `Full(K)` or `Refused(N)`) and the nanoseconds of a call. The first times every file of the folder whose
//! name ends in `.tbl` (words of 32 bits, lowest byte first) by calling itself so, in rounds, and the least round counts.
//! Each round is a process of its own, so that the library and the other programs are treated alike.
//!
//! The other programs are called in the same way, in the same rounds: this program as another checkout has it (`before`),
//! and a program for the same job (`baseline`). The baseline is called as `PROGRAM --plain --count ..`, without looking
//! ahead, on tables with `hopeless` in their names, unless `--ahead` is given. An answer that is not the library's is an
//! error. A table that another program refuses and the library does not is left out of that program's ratios.

use std::fs::{self, File};
use std::hint::black_box;
use std::io::Read;
use std::path::{Path, PathBuf};
use std::process::{exit, Command, Stdio};
use std::time::Instant;

use pallihun::{list, Listing};

/// About how long a round is: shorter than what a scheduler gives a process at a time, so that on a busy machine too some
/// rounds are undisturbed.
const ROUND_NS: f64 = 1_500_000.0;

struct Options {
    others: Vec<Program>,
    rounds: usize,
    lent: usize,
    folder: PathBuf,
}

/// A program to time: what its column is called, and whether it is called with `--plain` on hopeless tables.
struct Program {
    title: &'static str,
    path: PathBuf,
    plain: bool,
}

fn main() {
    let words: Vec<String> = std::env::args().skip(1).collect();
    let done = match words.first().map(String::as_str) {
        Some("--count") => count(&words[1..]),
        _ => options(words.into_iter()).and_then(|options| bench(&options)),
    };
    if let Err(why) = done {
        eprintln!("{why}");
        exit(1);
    }
}

fn options(mut words: impl Iterator<Item = String>) -> Result<Options, String> {
    let (mut before, mut baseline, mut plain) = (None, None, true);
    let (mut rounds, mut lent, mut folder) = (15, 16_384, None);
    while let Some(word) = words.next() {
        let mut value = || words.next().ok_or(format!("{word} wants a value"));
        match word.as_str() {
            "--before" => before = Some(PathBuf::from(value()?)),
            "--baseline" => baseline = Some(PathBuf::from(value()?)),
            "--ahead" => plain = false,
            "--rounds" => rounds = number(&value()?)?.max(1),
            "--lent" => lent = number(&value()?)?,
            _ if folder.is_none() && !word.starts_with('-') => folder = Some(PathBuf::from(word)),
            _ => return Err(format!("{word} is not understood")),
        }
    }
    let usage = "usage: bench [--before PROGRAM] [--baseline PROGRAM [--ahead]] [--rounds N] [--lent WORDS] FOLDER";
    let folder = folder.ok_or(usage)?;
    let before = before.map(|path| Program { title: "before", path, plain: false });
    let baseline = baseline.map(|path| Program { title: "baseline", path, plain });
    Ok(Options { others: before.into_iter().chain(baseline).collect(), rounds, lent, folder })
}

fn number(word: &str) -> Result<usize, String> {
    word.parse().map_err(|_| format!("{word} is no number"))
}

/// Lists the table of the standard input again and again, and prints the answer and the nanoseconds of a call.
fn count(words: &[String]) -> Result<(), String> {
    let [lent, calls] = words else { return Err("usage: bench --count WORDS CALLS <TABLE".into()) };
    let (mut lent, calls) = (vec![0; number(lent)?], number(calls)?.max(1));
    let mut bytes = Vec::new();
    std::io::stdin().read_to_end(&mut bytes).map_err(|why| format!("standard input: {why}"))?;
    let table: Vec<u32> = bytes.chunks_exact(4).map(|w| u32::from_le_bytes([w[0], w[1], w[2], w[3]])).collect();
    let mut answer = list(&table, &mut lent);
    let start = Instant::now();
    for _ in 0..calls {
        answer = black_box(list(black_box(&table), black_box(&mut lent)));
    }
    let ns = start.elapsed().as_nanos() as f64 / calls as f64;
    println!("{} {ns:.1} ns", spelt(answer));
    Ok(())
}

fn spelt(answer: Listing) -> String {
    match answer {
        Listing::Finished(entries) => format!("Entries({entries})"),
        Listing::Full(entries) => format!("Full({entries})"),
        Listing::Refused(refusal) => format!("Refused({})", refusal.number()),
    }
}

/// Times every table of the folder, and prints a line for each, and for each other program what its ratios come to.
fn bench(options: &Options) -> Result<(), String> {
    let path = std::env::current_exe().map_err(|why| format!("this program: {why}"))?;
    let own = Program { title: "library", path, plain: false };
    let programs: Vec<&Program> = std::iter::once(&own).chain(&options.others).collect();
    let tables = tables(&options.folder)?;
    let width = tables.iter().map(|path| name(path).len()).max().unwrap_or(0).max(5);
    print!("{:width$}  {:>14} {:>12} {:>10}", "table", "answer", "ns a call", "an entry");
    options.others.iter().for_each(|other| print!(" {:>12}  ratio", other.title));
    println!();
    let mut ratios = vec![Vec::new(); options.others.len()];
    for table in &tables {
        let (answer, times) = times(options, &programs, table)?;
        let ns = times[0].unwrap_or(f64::NAN);
        print!("{:width$}  {answer:>14} {ns:>12.1} {:>10}", name(table), an_entry(ns, &answer));
        for (time, ratios) in times[1..].iter().zip(&mut ratios) {
            match time {
                Some(time) => print!(" {time:>12.1} {:>6.2}", ns / time),
                None => print!(" {:>12} {:>6}", "refused", "-"),
            }
            ratios.extend(time.map(|time| (ns / time, name(table))));
        }
        println!();
    }
    for (other, ratios) in options.others.iter().zip(ratios) {
        sum_up(other.title, &ratios);
    }
    Ok(())
}

/// Prints the geometric mean of ratios and the greatest of them, with its table.
fn sum_up(title: &str, ratios: &[(f64, String)]) {
    let Some((greatest, table)) = ratios.iter().max_by(|one, other| one.0.total_cmp(&other.0)) else {
        return println!("{title}: every table is refused");
    };
    let mean = (ratios.iter().map(|(ratio, _)| ratio.ln()).sum::<f64>() / ratios.len() as f64).exp();
    println!("{title}: geometric mean of the ratios {mean:.3}, greatest {greatest:.2} ({table})");
}

/// The first program's answer, and the nanoseconds of a call of each program that does not refuse what the first one
/// lists: the least of rounds, in which the programs take turns, forward and backward. A round of three calls, which does
/// not count, says how many calls make a round.
fn times(options: &Options, programs: &[&Program], table: &Path) -> Result<(String, Vec<Option<f64>>), String> {
    let enough = |ns: f64| ((ROUND_NS / ns) as usize).clamp(3, 10_000_000);
    let refuses = |answer: &str| answer.starts_with("Refused");
    let (answer, first) = round(programs[0], table, options.lent, 3)?;
    let mut calls = vec![Some(enough(first))];
    for program in &programs[1..] {
        let (said, first) = round(program, table, options.lent, 3)?;
        if said != answer && (refuses(&answer) || !refuses(&said)) {
            return Err(format!("{}: the library answers {answer}, {} {said}", name(table), program.path.display()));
        }
        calls.push((said == answer).then_some(enough(first)));
    }
    let mut times = vec![None; programs.len()];
    for turn in 0..options.rounds {
        for step in 0..programs.len() {
            let at = if turn % 2 == 0 { step } else { programs.len() - 1 - step };
            let Some(count) = calls[at] else { continue };
            let (_, time) = round(programs[at], table, options.lent, count)?;
            let least = times[at].map_or(time, |least: f64| least.min(time));
            (times[at], calls[at]) = (Some(least), Some(enough(least)));
        }
    }
    Ok((answer, times))
}

/// What a program answers to a table, and its nanoseconds of a call over so many, by its own account.
fn round(program: &Program, table: &Path, lent: usize, calls: usize) -> Result<(String, f64), String> {
    let file = File::open(table).map_err(|why| format!("{}: {why}", table.display()))?;
    let mut command = Command::new(&program.path);
    command.args((program.plain && name(table).contains("hopeless")).then_some("--plain"));
    command.args(["--count", &lent.to_string(), &calls.to_string()]).stdin(file).stderr(Stdio::inherit());
    let output = command.output().map_err(|why| format!("{}: {why}", program.path.display()))?;
    let line = String::from_utf8_lossy(&output.stdout);
    let read = || -> Option<(String, f64)> {
        let mut words = line.split_whitespace();
        Some((words.next()?.into(), words.next()?.parse().ok()?))
    };
    read().ok_or_else(|| format!("{} prints {line:?}", program.path.display()))
}

/// The tables of a folder, by name.
fn tables(folder: &Path) -> Result<Vec<PathBuf>, String> {
    let files = fs::read_dir(folder).map_err(|why| format!("{}: {why}", folder.display()))?;
    let mut tables: Vec<PathBuf> = files.filter_map(|file| Some(file.ok()?.path())).collect();
    tables.retain(|path| path.extension().is_some_and(|end| end == "tbl"));
    tables.sort();
    if tables.is_empty() {
        return Err(format!("{}: no file there ends in .tbl", folder.display()));
    }
    Ok(tables)
}

fn name(path: &Path) -> String {
    path.file_stem().unwrap_or_default().to_string_lossy().into_owned()
}

/// The nanoseconds of an entry, where there are any.
fn an_entry(ns: f64, answer: &str) -> String {
    let entries = answer.split(['(', ')']).nth(1).and_then(|entries| entries.parse::<u64>().ok());
    match entries {
        Some(entries) if entries > 0 && !answer.starts_with("Refused") => format!("{:.1}", ns / entries as f64),
        _ => "-".into(),
    }
}
