//! The lines of this project's program `examples`: each asks for one operation on a table, and one line answers it.

use crate::operations::{check, list, unify, List, Unify};

/// The two numbers of a unification, and how many words are lent.
#[derive(Clone, Copy, Debug, PartialEq, Eq)]
pub struct Unification {
    pub a: u32,
    pub b: u32,
    pub lent: usize,
}

/// What is asked of a table.
#[derive(Clone, Copy, Debug, PartialEq, Eq)]
pub enum Operation {
    Check,
    Unify(Unification),
    /// With how many words are lent.
    List(usize),
}

/// A line: a name, a colon and the table's words. Its name says what is asked.
pub struct Question {
    pub name: String,
    pub operation: Operation,
    pub table: Vec<u32>,
}

/// What an operation answers, and the lent words after it.
#[derive(Clone, Debug, PartialEq, Eq)]
pub struct Answer {
    pub answer: String,
    pub lent: Vec<u32>,
}

impl Question {
    /// To check a table.
    pub fn check(name: String, table: Vec<u32>) -> Question {
        Question { name, operation: Operation::Check, table }
    }

    /// To unify two nodes of a table.
    pub fn unify(asked: Unification, name: String, table: Vec<u32>) -> Question {
        let Unification { a, b, lent } = asked;
        let name = format!("unify {a} {b} with {lent} lent, {name}");
        Question { name, operation: Operation::Unify(asked), table }
    }

    /// To list a table.
    pub fn list(lent: usize, name: String, table: Vec<u32>) -> Question {
        let name = format!("list with {lent} lent, {name}");
        Question { name, operation: Operation::List(lent), table }
    }

    /// The question of a line. The first three numbers of a name that begins with 'unify ', and the first of one that
    /// begins with 'list with ', say what is asked.
    pub fn read(line: &str) -> Option<Question> {
        let (name, words) = line.split_once(':')?;
        let table = words.split_whitespace().map(|word| word.parse().ok()).collect::<Option<Vec<u32>>>()?;
        let mut numbers = name.split(|c: char| !c.is_ascii_digit()).filter(|digits| !digits.is_empty());
        let mut number = || numbers.next()?.parse::<u32>().ok();
        let operation = if name.starts_with("unify ") {
            Operation::Unify(Unification { a: number()?, b: number()?, lent: number()? as usize })
        } else if name.starts_with("list with ") {
            Operation::List(number()? as usize)
        } else {
            Operation::Check
        };
        Some(Question { name: name.to_string(), operation, table })
    }

    /// The line itself.
    pub fn line(&self) -> String {
        format!("{}:{}\n", self.name, spaced(&self.table))
    }

    /// This program's answer.
    pub fn answer(&self) -> Answer {
        match self.operation {
            Operation::Check => {
                Answer { answer: check(&self.table).map_or("accepted".to_string(), refused), lent: vec![] }
            }
            Operation::Unify(Unification { a, b, lent }) => {
                let mut lent = lent_words(lent);
                let answer = match unify(&self.table, a, b, &mut lent) {
                    Unify::Refused(refusal) => refused(refusal),
                    Unify::Unified => "unified".to_string(),
                    Unify::Clash => "clash".to_string(),
                    Unify::Occurs => "occurs".to_string(),
                };
                Answer { answer, lent }
            }
            Operation::List(lent) => {
                let mut lent = lent_words(lent);
                let answer = match list(&self.table, &mut lent) {
                    List::Refused(refusal) => refused(refusal),
                    List::Finished(entries) => format!("entries {entries}"),
                    List::Full(entries) => format!("full {entries}"),
                };
                Answer { answer, lent }
            }
        }
    }

    /// The line of an answer.
    pub fn answered(&self, answer: &Answer) -> String {
        let comma = if answer.lent.is_empty() { "" } else { "," };
        format!("{}: {}{comma}{}\n", self.name, answer.answer, spaced(&answer.lent))
    }
}

/// Lent words before a call: numbers that are no nodes, all different.
pub fn lent_words(lent: usize) -> Vec<u32> {
    (9000..).take(lent).collect()
}

fn refused(refusal: u32) -> String {
    format!("refused {refusal}")
}

/// Words with a blank before each.
fn spaced(words: &[u32]) -> String {
    words.iter().map(|word| format!(" {word}")).collect()
}
