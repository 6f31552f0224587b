//! Assignments, equal sides, and instances of entries, as document 01 says them. Demand 3: the sides are equal under an
//! assignment exactly if it is an instance of an entry of the complete listing.

use crate::listing::Entry;
use crate::table::{Node, Problem, Side};
use crate::terms::{Replacement, Shape, Substitution, Term, Terms};
use std::collections::{BTreeMap, HashMap, HashSet};

/// "An assignment gives each variable present in the nodes section one finite term, and each label of the table a finite
/// multiset of finite terms."
#[derive(Clone, Debug)]
pub struct Assignment {
    pub variables: Substitution,
    pub labels: BTreeMap<u32, Vec<Term>>,
}

/// "Two sides are then equal if every term occurs equally often in both."
pub fn sides_equal(problem: &Problem, terms: &mut Terms, assignment: &Assignment) -> bool {
    let nodes = terms.of_nodes(problem);
    let mut replacement = Replacement::by(&assignment.variables);
    let mut put_into = |side: &Side| -> Vec<Term> {
        let own = side.terms.iter().map(|&node| replacement.in_term(terms, nodes[node]));
        let labels = side.labels.iter().flat_map(|label| assignment.labels[label].iter().copied());
        sorted(own.chain(labels).collect())
    };
    put_into(&problem.left) == put_into(&problem.right)
}

/// "An assignment is an instance of an entry if some substitution after the entry's unifier gives its variables, and its
/// labels are the terms put there, under the unifier and then that substitution, with such rests added."
pub fn is_instance(problem: &Problem, terms: &mut Terms, entry: &Entry, assignment: &Assignment) -> bool {
    let (n, m) = (problem.left.terms.len(), problem.right.terms.len());
    let (left_digits, others) = entry.split_at(n);
    let (right_digits, words) = others.split_at(m);
    let unifier = read_unifier(problem, terms, words);
    let Some(after) = after(terms, &unifier, &assignment.variables) else {
        return false;
    };
    let nodes = terms.of_nodes(problem);
    let mut value = |node: usize| {
        let under_unifier = Replacement::by(&unifier).in_term(terms, nodes[node]);
        Replacement::by(&after).in_term(terms, under_unifier)
    };
    // The rests of a side's labels together: what is left of each label without the terms put in it.
    let mut rests = |labels: &[u32], other: &Side, digits: &[u32], before: usize| -> Option<Vec<Term>> {
        let mut rests = Vec::new();
        for (i, label) in labels.iter().enumerate() {
            let digit = (before + i + 1) as u32;
            let put = other.terms.iter().zip(digits).filter(|(_, own)| **own == digit);
            let put: Vec<Term> = put.map(|(&node, _)| value(node)).collect();
            rests.extend(without(&assignment.labels[label], &put)?);
        }
        Some(sorted(rests))
    };
    let left_rests = rests(&problem.left.labels, &problem.right, right_digits, 0);
    let right_rests = rests(&problem.right.labels, &problem.left, left_digits, m);
    let (Some(left_rests), Some(right_rests)) = (left_rests, right_rests) else {
        return false;
    };
    // "The rests of the left labels together equal the rests of the right labels together; where the other side has no
    // labels the rests are empty."
    left_rests == right_rests
        && (!problem.right.labels.is_empty() || left_rests.is_empty())
        && (!problem.left.labels.is_empty() || right_rests.is_empty())
}

/// "An entry's unifier is read from its binding words".
pub fn read_unifier(problem: &Problem, terms: &mut Terms, words: &[u32]) -> Substitution {
    let variables = problem.variables();
    let words = variables.iter().copied().zip(words.iter().map(|&word| word as usize)).collect();
    let mut reading = Reading { problem, words, done: HashMap::new() };
    variables.into_iter().map(|x| (x, reading.value(terms, x))).collect()
}

struct Reading<'a> {
    problem: &'a Problem,
    words: BTreeMap<u32, usize>,
    done: HashMap<usize, Term>,
}

impl Reading<'_> {
    /// "a variable whose word is a variable node has that node's variable as its value; one whose word is an application
    /// node has that node's term, with the variables in it replaced by their values in turn."
    fn value(&mut self, terms: &mut Terms, x: u32) -> Term {
        let word = self.words[&x];
        match self.problem.nodes[word] {
            Node::Variable(y) => terms.make(Shape::Variable(y)),
            Node::Application { .. } => self.replaced(terms, word),
        }
    }

    fn replaced(&mut self, terms: &mut Terms, node: usize) -> Term {
        if let Some(&term) = self.done.get(&node) {
            return term;
        }
        let problem = self.problem;
        let term = match &problem.nodes[node] {
            Node::Variable(x) => self.value(terms, *x),
            Node::Application { name, arguments } => {
                let arguments = arguments.iter().map(|&argument| self.replaced(terms, argument)).collect();
                terms.make(Shape::Application(*name, arguments))
            }
        };
        self.done.insert(node, term);
        term
    }
}

/// The substitution that, after the first, gives the second on the variables of the first, if there is one.
pub fn after(terms: &Terms, first: &Substitution, second: &Substitution) -> Option<Substitution> {
    let mut after = Substitution::new();
    let mut met = HashSet::new();
    let mut rest: Vec<(Term, Term)> = first.iter().map(|(x, &value)| (value, second[x])).collect();
    while let Some((pattern, term)) = rest.pop() {
        if !met.insert((pattern, term)) {
            continue;
        }
        match (terms.shape(pattern), terms.shape(term)) {
            (&Shape::Variable(x), _) => {
                if *after.entry(x).or_insert(term) != term {
                    return None;
                }
            }
            (Shape::Application(f, ss), Shape::Application(g, ts)) if (f, ss.len()) == (g, ts.len()) => {
                rest.extend(ss.iter().copied().zip(ts.iter().copied()));
            }
            _ => return None,
        }
    }
    Some(after)
}

/// A multiset without the terms of another, if it holds them.
fn without(multiset: &[Term], others: &[Term]) -> Option<Vec<Term>> {
    let mut rest = multiset.to_vec();
    for other in others {
        let at = rest.iter().position(|term| term == other)?;
        rest.remove(at);
    }
    Some(rest)
}

fn sorted(mut terms: Vec<Term>) -> Vec<Term> {
    terms.sort_unstable();
    terms
}
