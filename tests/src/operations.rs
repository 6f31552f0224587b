//! Document 01's operations, and what its program `list` prints.

use crate::closure::{self, Outcome};
use crate::listing::{listing, Listing};
use crate::table::{read, Problem};
use crate::terms::Terms;
use crate::unification::most_general_unifier;
use crate::words::binding_words;

/// The words that the program lends.
pub const LENT: usize = 16384;

/// The most bytes of the program's input.
pub const MOST_BYTES: usize = 6288;

/// Checking a table: its refusal, if it gets one.
pub fn check(table: &[u32]) -> Option<u32> {
    read(table).err()
}

/// The answers of unifying two nodes.
#[derive(Clone, Copy, Debug, PartialEq, Eq)]
pub enum Unify {
    Refused(u32),
    Unified,
    Clash,
    Occurs,
}

/// Unifying two nodes, with lent binding words.
pub fn unify(table: &[u32], a: u32, b: u32, lent: &mut [u32]) -> Unify {
    let problem = match read(table) {
        Ok(problem) => problem,
        Err(refusal) => return Unify::Refused(refusal),
    };
    let (a, b) = (a as usize, b as usize);
    if a >= problem.nodes.len() || b >= problem.nodes.len() {
        return Unify::Refused(8);
    }
    let v = problem.variables().len();
    if lent.len() < v {
        return Unify::Refused(9);
    }
    let words = unifying_words(&problem, a, b);
    let outcome = closure::outcome(&problem, &[(a, b)]);
    assert_eq!(words.is_some(), outcome == Outcome::Unified, "the algorithm and the closure disagree");
    match outcome {
        Outcome::Unified => lent[..v].copy_from_slice(&words.expect("unified")),
        Outcome::Clash => return Unify::Clash,
        Outcome::Occurs => return Unify::Occurs,
    }
    Unify::Unified
}

fn unifying_words(problem: &Problem, a: usize, b: usize) -> Option<Vec<u32>> {
    let mut terms = Terms::default();
    let nodes = terms.of_nodes(problem);
    let sigma = most_general_unifier(&mut terms, &[(nodes[a], nodes[b])])?;
    Some(binding_words(problem, &mut terms, &nodes, &sigma))
}

/// The answers of listing, with the number of entries left in the lent words.
#[derive(Clone, Copy, Debug, PartialEq, Eq)]
pub enum List {
    /// 1 to 7.
    Refused(u32),
    Finished(usize),
    /// 10.
    Full(usize),
}

/// Listing, with lent words.
pub fn list(table: &[u32], lent: &mut [u32]) -> List {
    let problem = match read(table) {
        Ok(problem) => problem,
        Err(refusal) => return List::Refused(refusal),
    };
    let listing = listing(&problem, lent.len());
    let words = listing.entries.concat();
    lent[..words.len()].copy_from_slice(&words);
    if listing.full {
        List::Full(listing.entries.len())
    } else {
        List::Finished(listing.entries.len())
    }
}

/// A table from bytes, "four bytes a word, lowest byte first", or refusal 11.
pub fn words_of(input: &[u8]) -> Result<Vec<u32>, u32> {
    if input.len() > MOST_BYTES || input.len() % 4 != 0 {
        return Err(11);
    }
    let word = |bytes: &[u8]| u32::from_le_bytes([bytes[0], bytes[1], bytes[2], bytes[3]]);
    Ok(input.chunks(4).map(word).collect())
}

/// What the program `list` prints for an input.
pub fn printed(input: &[u8]) -> String {
    match words_of(input).and_then(|table| read(&table)) {
        Err(refusal) => refused(refusal),
        Ok(problem) => text(&listing(&problem, LENT)),
    }
}

/// The line of a refusal.
pub fn refused(refusal: u32) -> String {
    format!("refused {refusal}\n")
}

/// The lines of a listing.
pub fn text(listing: &Listing) -> String {
    let word = if listing.full { "full" } else { "entries" };
    let mut text = format!("{word} {}\n", listing.entries.len());
    for entry in &listing.entries {
        text += &entry.iter().map(u32::to_string).collect::<Vec<_>>().join(" ");
        text += "\n";
    }
    text
}
