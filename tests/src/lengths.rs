//! How many words are lent to the listings of a generated table.

use crate::generator::Made;
use crate::lines::Question;
use crate::listing::by_choices;
use crate::random::Random;
use crate::table::{read, Problem};

/// The most words that are lent.
pub const MOST_LENT: usize = 2048;

/// The most words that are lent where that is not for the sake of the entries.
const FEW_LENT: usize = 64;

/// The listings that are asked of a table, if it is whole words.
pub fn listings(made: &Made) -> Vec<Question> {
    let Some(table) = made.words() else { return vec![] };
    let random = &mut Random::of(!made.seed, made.index);
    let lengths = match read(&table) {
        Ok(problem) => accepted(random, &problem),
        Err(_) => vec![random.pick(&[0, 1, FEW_LENT])],
    };
    lengths.into_iter().map(|lent| Question::list(lent, format!("table {}", made.index), table.clone())).collect()
}

/// Few words, those of the whole listing or nearly so, and any number of words.
fn accepted(random: &mut Random, problem: &Problem) -> Vec<usize> {
    let entry = problem.entry_words();
    let few = random.pick(&[0, 1, entry.saturating_sub(1), entry, entry + 1]);
    // What the entries that fit into most words need, which are all or not.
    let words = by_choices(problem, MOST_LENT).entries.len() * entry;
    let nearly =
        random.pick(&[words, words.saturating_sub(1), words.saturating_sub(entry), words + 1, words + FEW_LENT]);
    let any = if random.one_in(8) { MOST_LENT } else { random.within(0, words + entry) };
    [few, nearly, any].map(|lent| lent.min(MOST_LENT)).to_vec()
}
