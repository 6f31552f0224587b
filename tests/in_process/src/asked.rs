//! Which nodes of a table are unified, and with how many words lent a table is unified and listed.

use crate::expected::Listed;
use second::operations::LENT;
use second::pairs::pairs_of_nodes;
use second::random::Random;
use second::table::Problem;

/// Where a table has no more nodes, each pair of them is unified.
const FEW_NODES: usize = 12;

/// How many pairs of terms and how many pairs of any nodes are unified, where there are more nodes.
const SAMPLE: usize = 24;

/// More words than any unifier needs.
const MANY: usize = 300;

/// The pairs of numbers that are unified: nodes, and numbers of which one or both are no nodes.
pub fn pairs(random: &mut Random, table: &Result<Problem, u32>) -> Vec<(u32, u32)> {
    // Refusals 1 to 7 go before 8.
    let Ok(problem) = table else { return vec![(random.below(4) as u32, 0), (u32::MAX, 0)] };
    let nodes = problem.nodes.len();
    let mut numbers = pairs_of_nodes(random, problem, FEW_NODES, SAMPLE);
    let node = random.below(nodes.max(1)) as u32;
    for wrong in [nodes as u32, random.pick(&[nodes as u32 + 1, 4 * nodes as u32, 256, 65536, u32::MAX])] {
        numbers.extend([(wrong, node), (node, wrong), (wrong, wrong)]);
    }
    numbers
}

/// How many words are lent to a unification: none, about as many as there are variables, and many.
pub fn unification_lengths(table: &Result<Problem, u32>) -> Vec<usize> {
    let variables = table.as_ref().map_or(0, |problem| problem.variables().len());
    rising(vec![0, variables.saturating_sub(1), variables, variables + 1, MANY])
}

/// How many words are lent to a listing: few, about one entry's, about those of some entries, about those of the whole
/// listing, and most.
pub fn listing_lengths(random: &mut Random, listed: &Listed) -> Vec<usize> {
    let Listed::Accepted(entry, listing) = listed else { return vec![0, 1, MANY] };
    let most = listing.entries.len();
    let mut lengths = vec![0, 1, LENT];
    for entries in [1, random.within(0, most), random.within(0, most), most] {
        let words = entries * entry;
        lengths.extend([words.saturating_sub(1), words, words + 1]);
    }
    lengths.retain(|&lent| lent <= LENT);
    rising(lengths)
}

/// Each number once.
fn rising(mut lengths: Vec<usize>) -> Vec<usize> {
    lengths.sort_unstable();
    lengths.dedup();
    lengths
}
