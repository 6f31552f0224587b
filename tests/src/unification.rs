//! The Martelli-Montanari algorithm of document 001, on terms kept once.
//!
//! Where its action (5) performs a substitution on all other pairs, the variable is here bound, and every variable of a
//! pair is looked up when the pair's turn comes: the same pairs, made only when they are needed. A pair met again has
//! been dealt with, so document 001's exponential example ends.

use crate::terms::{Shape, Substitution, Term, Terms};
use std::collections::{BTreeMap, HashMap, HashSet};

/// Pairs x ≐ t, one a variable. A variable that is bound may stand in the term of another, but none reaches itself.
#[derive(Default)]
pub struct Bindings {
    pairs: BTreeMap<u32, Term>,
}

/// The most general unifier of a set of pairs, or none.
pub fn most_general_unifier(terms: &mut Terms, pairs: &[(Term, Term)]) -> Option<Substitution> {
    bindings(terms, pairs).map(|bindings| bindings.substitution(terms))
}

/// Bindings that have the same unifiers as some pairs, or none where there is no unifier.
pub fn bindings(terms: &Terms, pairs: &[(Term, Term)]) -> Option<Bindings> {
    let mut bindings = Bindings::default();
    let mut met = HashSet::new();
    let mut rest = pairs.to_vec();
    while let Some((s, t)) = rest.pop() {
        let (s, t) = (bindings.look_up(terms, s), bindings.look_up(terms, t));
        if s == t || !met.insert((s, t)) {
            continue; // (3), also for equal applications, and pairs dealt with before
        }
        match (terms.shape(s), terms.shape(t)) {
            (Shape::Application(f, ss), Shape::Application(g, ts)) => {
                if (f, ss.len()) != (g, ts.len()) {
                    return None; // (2)
                }
                rest.extend(ss.iter().copied().zip(ts.iter().copied())); // (1)
            }
            (&Shape::Variable(x), _) => {
                if bindings.occurs(terms, x, t) {
                    return None; // (6)
                }
                bindings.pairs.insert(x, t); // (5)
            }
            (Shape::Application(..), Shape::Variable(_)) => rest.push((t, s)), // (4)
        }
    }
    Some(bindings)
}

impl Bindings {
    /// A term, or what the variable that it is stands for.
    fn look_up(&self, terms: &Terms, mut t: Term) -> Term {
        while let Shape::Variable(x) = terms.shape(t) {
            match self.pairs.get(x) {
                Some(&bound) => t = bound,
                None => break,
            }
        }
        t
    }

    /// Whether x ∈ Var(t), once the bound variables of t are replaced.
    fn occurs(&self, terms: &Terms, x: u32, t: Term) -> bool {
        let mut met = HashSet::new();
        let mut rest = vec![t];
        while let Some(t) = rest.pop() {
            let t = self.look_up(terms, t);
            if !met.insert(t) {
                continue;
            }
            match terms.shape(t) {
                Shape::Variable(y) if *y == x => return true,
                Shape::Variable(_) => {}
                Shape::Application(_, arguments) => rest.extend(arguments),
            }
        }
        false
    }

    /// The substitution of the solved set: every bound variable replaced in the terms of all others.
    fn substitution(&self, terms: &mut Terms) -> Substitution {
        let mut values = HashMap::new();
        let mut theta = Substitution::new();
        for &x in self.pairs.keys() {
            let term = terms.make(Shape::Variable(x));
            theta.insert(x, self.value(terms, term, &mut values));
        }
        theta
    }

    fn value(&self, terms: &mut Terms, t: Term, values: &mut HashMap<Term, Term>) -> Term {
        let t = self.look_up(terms, t);
        if let Some(&value) = values.get(&t) {
            return value;
        }
        let value = match terms.shape(t).clone() {
            Shape::Variable(_) => t,
            Shape::Application(name, arguments) => {
                let arguments = arguments.into_iter().map(|argument| self.value(terms, argument, values)).collect();
                terms.make(Shape::Application(name, arguments))
            }
        };
        values.insert(t, value);
        value
    }
}
