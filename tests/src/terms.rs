//! Terms and substitutions, as in document 001. Equal terms are kept once, so that a term that is exponentially long
//! when spelt out is still small, and two terms are equal exactly if their numbers are.

use crate::table::{Node, Problem};
use std::collections::{BTreeMap, HashMap};

/// A term, by its number among the terms kept.
#[derive(Clone, Copy, Debug, PartialEq, Eq, PartialOrd, Ord, Hash)]
pub struct Term(u32);

/// What a term is. A symbol is a name with its number of arguments.
#[derive(Clone, Debug, PartialEq, Eq, Hash)]
pub enum Shape {
    Variable(u32),
    Application(u32, Vec<Term>),
}

/// All terms made so far.
#[derive(Default)]
pub struct Terms {
    shapes: Vec<Shape>,
    numbers: HashMap<Shape, Term>,
}

impl Terms {
    pub fn make(&mut self, shape: Shape) -> Term {
        if let Some(&term) = self.numbers.get(&shape) {
            return term;
        }
        let term = Term(self.shapes.len() as u32);
        self.shapes.push(shape.clone());
        self.numbers.insert(shape, term);
        term
    }

    pub fn shape(&self, term: Term) -> &Shape {
        &self.shapes[term.0 as usize]
    }

    /// The term of each node of a problem.
    pub fn of_nodes(&mut self, problem: &Problem) -> Vec<Term> {
        let mut terms: Vec<Term> = Vec::new();
        for node in &problem.nodes {
            let shape = match node {
                Node::Variable(name) => Shape::Variable(*name),
                Node::Application { name, arguments } => {
                    Shape::Application(*name, arguments.iter().map(|&argument| terms[argument]).collect())
                }
            };
            terms.push(self.make(shape));
        }
        terms
    }
}

/// A substitution, by the variables that it replaces.
pub type Substitution = BTreeMap<u32, Term>;

/// The variables of terms replaced by a substitution, all at once. A term met again is not gone through again.
pub struct Replacement<'a> {
    theta: &'a Substitution,
    done: HashMap<Term, Term>,
}

impl<'a> Replacement<'a> {
    pub fn by(theta: &'a Substitution) -> Self {
        Replacement { theta, done: HashMap::new() }
    }

    /// tθ.
    pub fn in_term(&mut self, terms: &mut Terms, t: Term) -> Term {
        if let Some(&result) = self.done.get(&t) {
            return result;
        }
        let result = match terms.shape(t).clone() {
            Shape::Variable(x) => self.theta.get(&x).copied().unwrap_or(t),
            Shape::Application(name, arguments) => {
                let arguments = arguments.into_iter().map(|argument| self.in_term(terms, argument)).collect();
                terms.make(Shape::Application(name, arguments))
            }
        };
        self.done.insert(t, result);
        result
    }
}
