//! What the second program answers. It unifies two nodes once and lists a table once, whatever number of words is lent.

use second::lines::lent_words;
use second::listing::{listing, Listing};
use second::operations::{unify, Unify, LENT};
use second::table::{read, Problem};

/// An answer in the words of [`second::lines`], and the lent words after it.
pub struct Expected {
    pub answer: String,
    pub lent: Vec<u32>,
}

/// An answer with the words that it writes, of which the first are given.
fn written(answer: String, words: &[u32], lent: usize) -> Expected {
    let mut lent = lent_words(lent);
    lent[..words.len()].copy_from_slice(words);
    Expected { answer, lent }
}

fn refused(refusal: u32) -> String {
    format!("refused {refusal}")
}

/// Checking a table.
pub fn checked(table: &Result<Problem, u32>) -> Expected {
    let answer = table.as_ref().map_or_else(|&refusal| refused(refusal), |_| "accepted".to_string());
    written(answer, &[], 0)
}

/// Unifying two nodes of a table.
pub struct Unified {
    answer: Unify,
    words: Vec<u32>,
}

impl Unified {
    pub fn of(table: &[u32], a: u32, b: u32) -> Unified {
        let mut words = vec![0; read(table).map_or(0, |problem| problem.variables().len())];
        let answer = unify(table, a, b, &mut words);
        Unified { answer, words }
    }

    /// With some words lent: refusals 1 to 8 are tried first, then 9.
    pub fn with(&self, lent: usize) -> Expected {
        match self.answer {
            Unify::Refused(refusal) => written(refused(refusal), &[], lent),
            _ if lent < self.words.len() => written(refused(9), &[], lent),
            Unify::Unified => written("unified".to_string(), &self.words, lent),
            Unify::Clash => written("clash".to_string(), &[], lent),
            Unify::Occurs => written("occurs".to_string(), &[], lent),
        }
    }
}

/// Listing a table, with at most [`LENT`] words lent.
pub enum Listed {
    Refused(u32),
    /// The words of an entry, and what fits into most words.
    Accepted(usize, Listing),
}

impl Listed {
    pub fn of(table: &Result<Problem, u32>) -> Listed {
        match table {
            Err(refusal) => Listed::Refused(*refusal),
            Ok(problem) => Listed::Accepted(problem.entry_words(), listing(problem, LENT)),
        }
    }

    /// With some words lent: the first entries, as many as fit.
    pub fn with(&self, lent: usize) -> Expected {
        match self {
            Listed::Refused(refusal) => written(refused(*refusal), &[], lent),
            Listed::Accepted(entry, Listing { entries, full }) => {
                let fitting = lent.checked_div(*entry).unwrap_or(usize::MAX);
                let first = &entries[..entries.len().min(fitting)];
                let word = if *full || first.len() < entries.len() { "full" } else { "entries" };
                written(format!("{word} {}", first.len()), &first.concat(), lent)
            }
        }
    }
}
