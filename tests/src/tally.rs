//! What generated tables were: their families, their answers, and what is in the accepted ones.

use crate::generator::Made;
use crate::operations::{words_of, LENT, MOST_BYTES};
use crate::table::{read, Node, Problem};
use std::collections::{BTreeMap, HashSet};
use std::fmt;

#[derive(Default)]
pub struct Tally {
    pub tables: usize,
    pub families: BTreeMap<&'static str, usize>,
    pub answers: BTreeMap<String, usize>,
    pub features: BTreeMap<&'static str, usize>,
}

impl Tally {
    /// Counts a table.
    pub fn table(&mut self, made: &Made) {
        self.tables += 1;
        *self.families.entry(made.family).or_default() += 1;
    }

    /// Counts an answer, by its kind where it says how many entries there are.
    pub fn answer(&mut self, answer: &str) {
        *self.answers.entry(kind(answer).to_string()).or_default() += 1;
    }

    /// Counts a table by what is printed for it, and by what is in it.
    pub fn add(&mut self, made: &Made, printed: &str) {
        let answer = kind(printed.lines().next().unwrap_or_default());
        self.table(made);
        self.answer(answer);
        if let Some(problem) = words_of(&made.input).ok().and_then(|table| read(&table).ok()) {
            let entries = printed.lines().count() - 1;
            for feature in features(&problem, answer, entries) {
                *self.features.entry(feature).or_default() += 1;
            }
        }
    }
}

impl fmt::Display for Tally {
    fn fmt(&self, f: &mut fmt::Formatter) -> fmt::Result {
        writeln!(f, "{:6} tables, of the families", self.tables)?;
        for (family, count) in &self.families {
            writeln!(f, "{count:6}   {family}")?;
        }
        writeln!(f, "       answered")?;
        for (answer, count) in &self.answers {
            writeln!(f, "{count:6}   {answer}")?;
        }
        if !self.features.is_empty() {
            writeln!(f, "       accepted, with")?;
        }
        for (feature, count) in &self.features {
            writeln!(f, "{count:6}   {feature}")?;
        }
        Ok(())
    }
}

fn kind(answer: &str) -> &str {
    match answer.split_once(' ') {
        Some(("entries", "0")) => "no entry",
        Some(("entries", _)) => "entries",
        Some(("full", _)) => "full",
        _ => answer,
    }
}

/// Features of a problem that its family does not settle.
fn features(problem: &Problem, answer: &str, entries: usize) -> Vec<&'static str> {
    let sides = [&problem.left, &problem.right];
    let labels = match sides.map(|side| side.labels.is_empty()) {
        [true, true] => "labels on no side",
        [false, false] => "labels on both sides",
        _ => "labels on one side",
    };
    let variables = problem.variables();
    let constants: Vec<_> = problem.nodes.iter().filter_map(symbol).filter(|&(_, count)| count == 0).collect();
    let symbols: HashSet<_> = problem.nodes.iter().filter_map(symbol).collect();
    let names: HashSet<_> = symbols.iter().map(|&(name, _)| name).collect();
    let used = used_variables(problem);
    let mut features = vec![labels];
    for (feature, present) in [
        ("a repeated term", sides.iter().any(|side| repeats(&side.terms))),
        ("equal constants at different nodes", repeats(&constants)),
        ("one name with two counts", names.len() < symbols.len()),
        ("a variable in no term", used.len() < variables.len()),
        ("256 nodes", problem.nodes.len() == 256),
        ("512 arguments", problem.arguments() == 512),
        ("8 terms on a side", sides.iter().any(|side| side.terms.len() == 8)),
        ("4 labels on a side", sides.iter().any(|side| side.labels.len() == 4)),
        ("64 variables", variables.len() == 64),
        ("every limit at once", problem.table().len() == MOST_BYTES / 4 && variables.len() == 64),
        ("entries of 0 words", problem.entry_words() == 0),
        ("all lent words filled and finished", answer == "entries" && entries * problem.entry_words() == LENT),
        ("all lent words filled and full", answer == "full" && entries * problem.entry_words() == LENT),
    ] {
        if present {
            features.push(feature);
        }
    }
    features
}

fn symbol(node: &Node) -> Option<(u32, usize)> {
    match node {
        Node::Variable(_) => None,
        Node::Application { name, arguments } => Some((*name, arguments.len())),
    }
}

fn repeats<T: PartialEq>(list: &[T]) -> bool {
    (0..list.len()).any(|i| list[..i].contains(&list[i]))
}

/// The variables in the terms of the sides.
fn used_variables(problem: &Problem) -> HashSet<u32> {
    let mut met = HashSet::new();
    let mut used = HashSet::new();
    let mut rest = [&problem.left.terms[..], &problem.right.terms].concat();
    while let Some(node) = rest.pop() {
        if met.insert(node) {
            match &problem.nodes[node] {
                Node::Variable(name) => {
                    used.insert(*name);
                }
                Node::Application { arguments, .. } => rest.extend(arguments),
            }
        }
    }
    used
}
