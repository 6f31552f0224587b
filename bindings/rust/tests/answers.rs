//! Every line of the program `examples`, asked of the library: the answers and every lent word are those that the proved
//! program printed.

use pallihun::{check, list, unify, Listing, Refusal, Unification};
use std::collections::BTreeSet;
use std::fs;
use std::thread;

/// The stored input or output of the program `examples`.
fn stored(name: &str) -> String {
    let path = format!("{}/../../crates/examples/{name}", env!("CARGO_MANIFEST_DIR"));
    fs::read_to_string(&path).unwrap_or_else(|error| panic!("{path}: {error}"))
}

/// Lent words before a call: numbers that are no nodes, all different.
fn lent_words(lent: u32) -> Vec<u32> {
    (9000..9000 + lent).collect()
}

fn refused(refusal: Refusal) -> String {
    format!("refused {}", refusal.number())
}

/// What is asked by a line's name, of a table: the operation, its answer, and the lent words after it. The first three
/// numbers of a name that begins with 'unify ', and the first of one that begins with 'list with ', say what is asked.
fn answer(name: &str, table: &[u32]) -> (&'static str, String, Vec<u32>) {
    let numbers = name.split(|c: char| !c.is_ascii_digit()).filter(|digits| !digits.is_empty());
    let mut numbers = numbers.map(|digits| digits.parse::<u32>().expect("a word"));
    let mut number = || numbers.next().expect("a number");
    if name.starts_with("unify ") {
        let (a, b) = (number(), number());
        let mut out = lent_words(number());
        let answer = match unify(table, a, b, &mut out) {
            Unification::Unified => "unified".to_string(),
            Unification::Clash => "clash".to_string(),
            Unification::Occurs => "occurs".to_string(),
            Unification::Refused(refusal) => refused(refusal),
        };
        ("unify", answer, out)
    } else if name.starts_with("list with ") {
        let mut out = lent_words(number());
        let answer = match list(table, &mut out) {
            Listing::Finished(entries) => format!("entries {entries}"),
            Listing::Full(entries) => format!("full {entries}"),
            Listing::Refused(refusal) => refused(refusal),
        };
        ("list", answer, out)
    } else {
        ("check", check(table).map_or_else(refused, |()| "accepted".to_string()), vec![])
    }
}

/// The kind of an answer: without the number of entries, if there are any.
fn kind(operation: &str, answer: &str) -> String {
    match answer.split_once(' ') {
        Some(("entries", "0")) => "list: no entry".to_string(),
        Some((word @ ("entries" | "full"), _)) => format!("list: {word}"),
        _ => format!("{operation}: {answer}"),
    }
}

/// The line that answers a line, and the kind of the answer.
fn answer_line(line: &str) -> (String, String) {
    let (name, words) = line.split_once(':').expect("a name");
    let table: Vec<u32> = words.split_whitespace().map(|word| word.parse().expect("a word")).collect();
    let (operation, answer, out) = answer(name, &table);
    let comma = if out.is_empty() { "" } else { "," };
    let out: String = out.iter().map(|word| format!(" {word}")).collect();
    (kind(operation, &answer), format!("{name}: {answer}{comma}{out}"))
}

#[test]
fn the_answers_are_those_of_the_program() {
    let (asked, answered) = (stored("stdin"), stored("stdout"));
    assert_eq!(asked.lines().count(), answered.lines().count());
    let mut kinds = BTreeSet::new();
    for (line, expected) in asked.lines().zip(answered.lines()) {
        let (kind, answered) = answer_line(line);
        assert_eq!(answered, expected);
        kinds.insert(kind);
    }
    let refusals = |operation, numbers: std::ops::RangeInclusive<u32>| {
        numbers.map(move |number| format!("{operation}: refused {number}"))
    };
    let others = ["check: accepted", "unify: unified", "unify: clash", "unify: occurs"];
    let listings = ["list: entries", "list: no entry", "list: full"];
    let all = others.iter().chain(&listings).map(|kind| kind.to_string());
    for kind in all.chain(refusals("check", 1..=7)).chain(refusals("unify", 1..=9)).chain(refusals("list", 1..=7)) {
        assert!(kinds.contains(&kind), "no line is answered '{kind}'");
    }
}

#[test]
fn calls_of_several_threads_do_not_disturb_each_other() {
    let (asked, answered) = (stored("stdin"), stored("stdout"));
    let ask_all = || {
        for (line, expected) in asked.lines().zip(answered.lines()) {
            assert_eq!(answer_line(line).1, expected);
        }
    };
    thread::scope(|scope| {
        for _ in 0..4 {
            scope.spawn(ask_all);
        }
    });
}
