//! The algorithms of document 000, held against what it says of them.

use second::algorithms::{choose, ordered_partitions, permutations, MultisetVariable, Unifier};
use second::generator::accepted;
use second::listing::{by_algorithm_1, unifiers};
use second::table::{Problem, Side};
use second::terms::{Replacement, Term, Terms};
use std::collections::HashSet;

/// "the ordered 2-partitions of the multiset {a, b, c} are", with the misprint that document 01 names put right.
#[test]
fn the_ordered_2_partitions_of_a_b_c() {
    let partitions = ordered_partitions(&['a', 'b', 'c'], 2);
    let texts: HashSet<String> = partitions
        .iter()
        .map(|partition| partition.iter().map(|part| part.iter().collect::<String>()).collect::<Vec<_>>().join("|"))
        .collect();
    let expected = ["abc|", "ab|c", "a|bc", "ac|b", "|abc", "c|ab", "bc|a", "b|ac"];
    assert_eq!(partitions.len(), 8);
    assert_eq!(texts, expected.map(String::from).into());
}

/// "If there are no terms, then there is only the trivial partition"; "If there are no multiset variables, then there are
/// no partitions".
#[test]
fn partitions_of_nothing_and_into_nothing() {
    assert_eq!(ordered_partitions::<char>(&[], 3), vec![vec![vec![]; 3]]);
    assert!(ordered_partitions(&['a'], 0).is_empty());
}

#[test]
fn choices_and_orders_are_all_there_once() {
    let binomial = |n: usize, c: usize| (0..c).fold(1, |product, i| product * (n - i) / (i + 1));
    for n in 0..=8 {
        let list: Vec<usize> = (0..n).collect();
        for c in 0..=n {
            let chosen = choose(&list, c);
            assert_eq!(chosen.len(), binomial(n, c));
            assert_eq!(chosen.iter().collect::<HashSet<_>>().len(), chosen.len());
            for (chosen, rest) in &chosen {
                let mut all = [&chosen[..], rest].concat();
                all.sort_unstable();
                assert_eq!((chosen.len(), all), (c, list.clone()));
            }
        }
        assert!(choose(&list, n + 1).is_empty());
        if n <= 6 {
            let orders = permutations(&list);
            assert_eq!(orders.len(), (1..=n).product::<usize>());
            assert_eq!(orders.iter().collect::<HashSet<_>>().len(), orders.len());
            for mut order in orders {
                order.sort_unstable();
                assert_eq!(order, list);
            }
        }
    }
}

/// The terms of a side under a unifier: {t_1, .., t_n | M_1, .., M_k}σ, without what stands for rests.
fn under(problem: &Problem, terms: &mut Terms, side: &Side, unifier: &Unifier) -> Vec<Term> {
    let nodes = terms.of_nodes(problem);
    let mut replacement = Replacement::by(&unifier.pairing.sigma);
    let mut all: Vec<Term> = side.terms.iter().map(|&node| replacement.in_term(terms, nodes[node])).collect();
    for label in &side.labels {
        all.extend(unifier.contexts[label].terms.iter().map(|tagged| tagged.term));
    }
    all.sort_unstable();
    all
}

/// Theorem 1, soundness: under each unifier the terms of both sides are the same, and labels have a rest exactly if the
/// other side has labels.
#[test]
fn each_unifier_makes_the_sides_equal() {
    let mut count = 0;
    for (_, problem) in accepted(31, 1500) {
        if by_algorithm_1(&problem, 0).is_none() {
            continue;
        }
        let mut terms = Terms::default();
        let nodes = terms.of_nodes(&problem);
        for unifier in unifiers(&problem, &mut terms, &nodes).iter().take(200) {
            let left = under(&problem, &mut terms, &problem.left, unifier);
            let right = under(&problem, &mut terms, &problem.right, unifier);
            assert_eq!(left, right, "{problem:?}");
            rests_are_right(unifier, &problem.left, &problem.right);
            rests_are_right(unifier, &problem.right, &problem.left);
            count += 1;
        }
    }
    assert!(count > 10000, "only {count} unifiers");
}

fn rests_are_right(unifier: &Unifier, side: &Side, other: &Side) {
    for label in &side.labels {
        let context = &unifier.contexts[label];
        let expected = match (other.labels.is_empty(), context.terms.is_empty()) {
            (true, _) => vec![],
            (false, true) => vec![MultisetVariable::Given(*label)],
            (false, false) => vec![MultisetVariable::Fresh(*label)],
        };
        assert_eq!(context.variables, expected);
    }
}
