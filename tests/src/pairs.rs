//! The pairs of nodes of a generated table that are unified, with the words that are lent.

use crate::generator::Made;
use crate::lines::{Question, Unification};
use crate::random::Random;
use crate::table::{read, Problem};

/// Where a table has no more nodes, each pair of them is unified.
const FEW_NODES: usize = 4;

/// How many pairs of terms and how many pairs of any nodes are unified, where there are more nodes.
const SAMPLE: usize = 3;

/// The most words that are lent.
pub const MOST_LENT: usize = 128;

/// The unifications that are asked of a table, if it is whole words.
pub fn unifications(made: &Made) -> Vec<Question> {
    let Some(table) = made.words() else { return vec![] };
    let random = &mut Random::of(!made.seed, made.index);
    let asked = match read(&table) {
        Ok(problem) => accepted(random, &problem),
        // Refusals 1 to 7 go before 8, and before 9.
        Err(_) => vec![
            Unification { a: random.below(4) as u32, b: 0, lent: random.pick(&[0, 1, MOST_LENT]) },
            Unification { a: u32::MAX, b: 0, lent: random.pick(&[0, 1, MOST_LENT]) },
        ],
    };
    asked.into_iter().map(|asked| Question::unify(asked, format!("table {}", made.index), table.clone())).collect()
}

fn accepted(random: &mut Random, problem: &Problem) -> Vec<Unification> {
    let mut numbers = pairs_of_nodes(random, problem, FEW_NODES, SAMPLE);
    numbers.push(not_both_nodes(random, problem.nodes.len()));
    let variables = problem.variables().len();
    numbers.into_iter().map(|(a, b)| Unification { a, b, lent: lent(random, variables) }).collect()
}

/// Pairs of nodes of a problem: each pair where it has no more than `few` nodes, otherwise `sample` pairs of terms of its
/// sides and as many of any nodes.
pub fn pairs_of_nodes(random: &mut Random, problem: &Problem, few: usize, sample: usize) -> Vec<(u32, u32)> {
    let nodes = problem.nodes.len();
    let mut pairs: Vec<(usize, usize)> = vec![];
    if nodes <= few {
        pairs.extend((0..nodes).flat_map(|a| (0..nodes).map(move |b| (a, b))));
    } else {
        let (left, right) = (&problem.left.terms, &problem.right.terms);
        if !left.is_empty() && !right.is_empty() {
            pairs.extend((0..sample).map(|_| (random.pick(left), random.pick(right))));
        }
        pairs.extend((0..sample).map(|_| (random.below(nodes), random.below(nodes))));
    }
    pairs.into_iter().map(|(a, b)| (a as u32, b as u32)).collect()
}

/// Two numbers of which the first, the second or both are no nodes.
fn not_both_nodes(random: &mut Random, nodes: usize) -> (u32, u32) {
    let node = random.below(nodes.max(1)) as u32;
    let wrong = random.pick(&[nodes as u32, nodes as u32 + 1, 4 * nodes as u32, 256, 65536, u32::MAX]);
    random.pick(&[(wrong, node), (node, wrong), (wrong, wrong)])
}

/// How many words to lend: none, one less than the variables need, as many, or more.
fn lent(random: &mut Random, variables: usize) -> usize {
    let more = random.within(variables, MOST_LENT);
    random.pick(&[0, variables.saturating_sub(1), variables, variables, variables, variables + 1, more])
}
