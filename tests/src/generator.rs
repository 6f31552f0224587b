//! Tables to compare programs on. A table is made from a seed and its index alone, so that each can be made again.

use crate::operations::words_of;
use crate::random::Random;
use crate::table::{read, Problem};
use crate::{damage, families, forced};

/// The input of a program that reads a table, with what it was made from and the name of its family.
pub struct Made {
    pub seed: u64,
    pub index: u64,
    pub family: &'static str,
    pub input: Vec<u8>,
}

impl Made {
    /// The input's words, however many, if it is whole words.
    pub fn words(&self) -> Option<Vec<u32>> {
        let words = self.input.chunks_exact(4);
        let whole = words.remainder().is_empty();
        whole.then(|| words.map(|bytes| u32::from_le_bytes([bytes[0], bytes[1], bytes[2], bytes[3]])).collect())
    }

    /// The table in decimal; where the input is not whole words, its bytes.
    pub fn shown(&self) -> String {
        let Made { seed, index, family, input } = self;
        let (unit, numbers) = match self.words() {
            Some(words) => ("words", words),
            None => ("bytes", input.iter().map(|&byte| u32::from(byte)).collect()),
        };
        let numbers: Vec<String> = numbers.iter().map(u32::to_string).collect();
        format!("seed {seed}, table {index}, {family}, {} {unit}: {}", numbers.len(), numbers.join(" "))
    }
}

/// A family: its name, its share of the tables, and how one is made.
pub type Family = (&'static str, usize, fn(&mut Random) -> Vec<u8>);

pub const FAMILIES: [Family; 21] = [
    ("small", 24, |random| bytes(families::small(random))),
    ("medium", 6, |random| bytes(families::medium(random))),
    ("large", 3, |random| bytes(families::large(random))),
    ("variants", 16, |random| bytes(families::variants(random))),
    ("ground", 7, |random| bytes(families::ground(random))),
    ("hopeless", 5, |random| bytes(families::hopeless(random))),
    ("forced chain", 8, |random| bytes(forced::chain(random))),
    ("symbols", 6, |random| bytes(forced::symbols(random))),
    ("alike", 4, |random| bytes(families::alike(random))),
    ("cycles", 5, |random| bytes(families::cycles(random))),
    ("exponential", 3, |random| bytes(families::exponential(random))),
    ("packed", 10, |random| bytes(families::packed(random))),
    ("wide", 6, |random| bytes(families::wide(random))),
    ("limits", 3, |random| bytes(families::limits(random))),
    ("boundaries", 3, |random| bytes(families::boundaries(random))),
    ("exact", 1, |random| bytes(families::exact(random))),
    ("no more fits", 1, |random| bytes(families::no_more_fits(random))),
    ("one past", 1, |random| bytes(families::one_past(random))),
    ("damaged", 18, |random| damage::once(&families::any_size(random), random)),
    ("damaged more", 8, |random| damage::several(&families::any_size(random), random)),
    ("altered", 3, |random| damage::altered(&families::any_size(random), random)),
];

/// The table of a seed and an index.
pub fn make(seed: u64, index: u64) -> Made {
    let mut random = Random::of(seed, index);
    let shares = FAMILIES.iter().map(|&(_, share, _)| share).sum();
    let mut at = random.below(shares);
    for (family, share, make) in FAMILIES {
        if at < share {
            return Made { seed, index, family, input: make(&mut random) };
        }
        at -= share;
    }
    unreachable!("the shares add up")
}

/// The accepted tables among the first of a seed, with the problems that they are.
pub fn accepted(seed: u64, count: u64) -> impl Iterator<Item = (Vec<u32>, Problem)> {
    (0..count).filter_map(move |index| {
        let table = words_of(&make(seed, index).input).ok()?;
        let problem = read(&table).ok()?;
        Some((table, problem))
    })
}

fn bytes(problem: Problem) -> Vec<u8> {
    damage::bytes(&problem.table())
}
