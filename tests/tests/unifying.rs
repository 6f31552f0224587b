//! Unifying: the algorithm of document 001 and the closure of document 01 agree, and binding words read back as a most
//! general unifier.

use second::assignments::{after, read_unifier};
use second::closure::{outcome, Outcome};
use second::generator::accepted;
use second::random::Random;
use second::table::{Node, Problem};
use second::terms::{Replacement, Shape, Substitution, Term, Terms};
use second::unification::most_general_unifier;
use second::words::binding_words;

/// Pairs of nodes of a problem, a few at a time.
fn pairs(random: &mut Random, problem: &Problem) -> Vec<(usize, usize)> {
    let nodes = problem.nodes.len();
    (0..random.within(1, 4)).map(|_| (random.below(nodes), random.below(nodes))).collect()
}

/// Problems with nodes.
fn problems(seed: u64, count: u64) -> impl Iterator<Item = Problem> {
    accepted(seed, count).map(|(_, problem)| problem).filter(|problem| !problem.nodes.is_empty())
}

#[test]
fn the_algorithm_and_the_closure_agree() {
    let mut random = Random::of(21, 0);
    let mut outcomes = [0; 3];
    for problem in problems(21, 1500) {
        for _ in 0..5 {
            let pairs = pairs(&mut random, &problem);
            let mut terms = Terms::default();
            let nodes = terms.of_nodes(&problem);
            let of_terms: Vec<(Term, Term)> = pairs.iter().map(|&(a, b)| (nodes[a], nodes[b])).collect();
            let unifier = most_general_unifier(&mut terms, &of_terms);
            let outcome = outcome(&problem, &pairs);
            assert_eq!(unifier.is_some(), outcome == Outcome::Unified, "{problem:?} {pairs:?}");
            outcomes[outcome as usize] += 1;
        }
    }
    assert!(outcomes.iter().all(|&count| count > 100), "unified, clash, occurs: {outcomes:?}");
}

/// Some substitution of all variables by small terms.
fn substitution(random: &mut Random, terms: &mut Terms, problem: &Problem) -> Substitution {
    let a = terms.make(Shape::Application(1, vec![]));
    let b = terms.make(Shape::Application(2, vec![]));
    let f = terms.make(Shape::Application(3, vec![a]));
    let z = terms.make(Shape::Variable(99));
    problem.variables().into_iter().map(|x| (x, random.pick(&[a, a, b, f, z]))).collect()
}

#[test]
fn binding_words_read_back_as_a_most_general_unifier() {
    let mut random = Random::of(22, 0);
    let (mut unified, mut others) = (0, 0);
    for problem in problems(22, 1500) {
        for _ in 0..5 {
            let pairs = pairs(&mut random, &problem);
            let mut terms = Terms::default();
            let nodes = terms.of_nodes(&problem);
            let of_terms: Vec<(Term, Term)> = pairs.iter().map(|&(a, b)| (nodes[a], nodes[b])).collect();
            let mgu = most_general_unifier(&mut terms, &of_terms);
            if let Some(sigma) = &mgu {
                let words = binding_words(&problem, &mut terms, &nodes, sigma);
                let unifier = read_unifier(&problem, &mut terms, &words);
                unifies(&mut terms, &unifier, &of_terms);
                least(&problem, &mut terms, &nodes, &unifier, &words);
                unified += 1;
            }
            // Whatever unifies the pairs comes after the most general unifier.
            for _ in 0..5 {
                let other = substitution(&mut random, &mut terms, &problem);
                let mut replacement = Replacement::by(&other);
                let mut same = |&(s, t)| replacement.in_term(&mut terms, s) == replacement.in_term(&mut terms, t);
                if of_terms.iter().all(&mut same) {
                    let sigma = mgu.as_ref().expect("the pairs have a unifier");
                    let words = binding_words(&problem, &mut terms, &nodes, sigma);
                    let unifier = read_unifier(&problem, &mut terms, &words);
                    assert!(after(&terms, &unifier, &other).is_some());
                    others += usize::from(of_terms.iter().any(|(s, t)| s != t));
                }
            }
        }
    }
    assert!(unified > 1000 && others > 300, "{unified} unified, {others} other unifiers");
}

fn unifies(terms: &mut Terms, unifier: &Substitution, pairs: &[(Term, Term)]) {
    let mut replacement = Replacement::by(unifier);
    for &(s, t) in pairs {
        assert_eq!(replacement.in_term(terms, s), replacement.in_term(terms, t));
    }
}

/// Each word is the least node that document 01 asks for, and no application node has the value of a variable.
fn least(problem: &Problem, terms: &mut Terms, nodes: &[Term], unifier: &Substitution, words: &[u32]) {
    let mut replacement = Replacement::by(unifier);
    let values: Vec<Term> = nodes.iter().map(|&term| replacement.in_term(terms, term)).collect();
    for (x, &word) in problem.variables().into_iter().zip(words) {
        let value = unifier[&x];
        let with_value = (0..nodes.len()).filter(|&node| values[node] == value);
        let key = |node: usize| match problem.nodes[node] {
            Node::Application { .. } => (0, 0, node),
            Node::Variable(y) => (1, y, node),
        };
        assert_eq!(with_value.map(key).min().map(|(_, _, node)| node), Some(word as usize));
    }
}

/// Document 001's exponential example, with as many variables as a table can have.
#[test]
fn exponential_terms_end() {
    let mut problem = Problem::default();
    problem.nodes.extend((0..61).map(Node::Variable));
    problem.nodes.extend((0..60).map(|i| Node::Application { name: 7, arguments: vec![i, i] }));
    let pairs: Vec<(usize, usize)> = (0..60).map(|i| (i + 1, 61 + i)).collect();
    let mut terms = Terms::default();
    let nodes = terms.of_nodes(&problem);
    let of_terms: Vec<(Term, Term)> = pairs.iter().map(|&(a, b)| (nodes[a], nodes[b])).collect();
    let sigma = most_general_unifier(&mut terms, &of_terms).expect("there is no cycle");
    let words = binding_words(&problem, &mut terms, &nodes, &sigma);
    let expected: Vec<u32> = std::iter::once(0).chain(61..121).collect();
    assert_eq!(words, expected);
    assert_eq!(outcome(&problem, &pairs), Outcome::Unified);
    let cycle = [&pairs[..], &[(0, 60)]].concat();
    assert_eq!(outcome(&problem, &cycle), Outcome::Occurs);
}
