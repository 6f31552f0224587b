//! The binding words of document 01: "one word for each variable present in the nodes section, in rising order of
//! variable number."

use crate::table::{Node, Problem};
use crate::terms::{Replacement, Shape, Substitution, Term, Terms};

/// The words of a unifier. The terms of the problem's nodes are given.
pub fn binding_words(problem: &Problem, terms: &mut Terms, of_nodes: &[Term], sigma: &Substitution) -> Vec<u32> {
    let mut replacement = Replacement::by(sigma);
    let values: Vec<Term> = of_nodes.iter().map(|&term| replacement.in_term(terms, term)).collect();
    problem.variables().into_iter().map(|x| binding_word(problem, terms, &values, x) as u32).collect()
}

fn binding_word(problem: &Problem, terms: &Terms, values: &[Term], x: u32) -> usize {
    let nodes = || problem.nodes.iter().enumerate();
    let (own, _) = nodes().find(|(_, node)| **node == Node::Variable(x)).expect("x is present");
    let same = |number: usize| values[number] == values[own];
    match terms.shape(values[own]) {
        // "Where the variable's value is an application, the word is the least number of an application node whose
        // value under the unifier is the same."
        Shape::Application(..) => {
            let is_application = |number: usize| matches!(problem.nodes[number], Node::Application { .. });
            let least = (0..values.len()).find(|&number| is_application(number) && same(number));
            least.expect("a unifier's applications are those of the table")
        }
        // "Otherwise the word is the least node of the lowest-numbered variable that has the same value."
        Shape::Variable(_) => {
            let variables = nodes().filter_map(|(number, node)| match node {
                Node::Variable(y) if same(number) => Some((*y, number)),
                _ => None,
            });
            variables.min().expect("x has its own value").1
        }
    }
}
