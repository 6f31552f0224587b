//! Algorithms 1 to 5 of document 000, under its names.
//!
//! Lists stand in place of its sets, and every term keeps the position at which it stands in its side: "Equal terms at
//! different positions give different choices." A unifier of terms keeps the pairs that it unifies, for the same reason.

use crate::terms::{Replacement, Substitution, Term, Terms};
use crate::unification::most_general_unifier;
use std::collections::BTreeMap;
use std::rc::Rc;

/// A term with its position in its side, from 0.
#[derive(Clone, Copy, Debug, PartialEq, Eq)]
pub struct Tagged {
    pub position: usize,
    pub term: Term,
}

/// A multiset variable M, or the fresh one M' that stands for the rest of M.
#[derive(Clone, Copy, Debug, PartialEq, Eq)]
pub enum MultisetVariable {
    Given(u32),
    Fresh(u32),
}

/// {t_1, .., t_n | M_1, .., M_k}
#[derive(Clone, Debug, Default, PartialEq, Eq)]
pub struct Mmset {
    pub terms: Vec<Tagged>,
    pub variables: Vec<MultisetVariable>,
}

/// A substitution of multiset variables, by their labels.
pub type Contexts = BTreeMap<u32, Mmset>;

/// σ_t: the most general unifier of some pairs.
#[derive(Debug)]
pub struct Pairing {
    pub pairs: Vec<(Tagged, Tagged)>,
    pub sigma: Substitution,
}

/// σ_M σ_t: for term variables what σ_t gives, for multiset variables what σ_M gives, under σ_t.
#[derive(Clone, Debug)]
pub struct Unifier {
    pub pairing: Rc<Pairing>,
    pub contexts: Contexts,
}

/// Algorithm 1. A side's multiset variables are its labels.
pub fn unify(terms: &mut Terms, left: (&[Tagged], &[u32]), right: (&[Tagged], &[u32])) -> Vec<Unifier> {
    let ((t, ms), (s, ns)) = (left, right);
    let (n, k, m, l) = (t.len(), ms.len(), s.len(), ns.len());
    if k == 0 && l == 0 {
        if n == m {
            let pairings = unify_terms(terms, t, s);
            pairings.into_iter().map(|pairing| Unifier { pairing, contexts: Contexts::new() }).collect()
        } else {
            vec![]
        }
    } else if k == 0 {
        if m <= n {
            unify_c(terms, m, left, right)
        } else {
            vec![]
        }
    } else if l == 0 {
        if n <= m {
            unify_c(terms, n, left, right)
        } else {
            vec![]
        }
    } else {
        let c = n.min(m);
        let mut sigmas = vec![];
        for i in 0..=c {
            sigmas.extend(unify_c(terms, i, left, right));
        }
        sigmas
    }
}

/// Algorithm 2: c terms of each side are unified, the others distributed.
fn unify_c(terms: &mut Terms, c: usize, left: (&[Tagged], &[u32]), right: (&[Tagged], &[u32])) -> Vec<Unifier> {
    let ((t, ms), (s, ns)) = (left, right);
    let mut sigmas = vec![];
    let ts = choose(t, c);
    let ss = choose(s, c);
    for (t_c, t_r) in &ts {
        for (s_c, s_r) in &ss {
            let sigmas_t = unify_terms(terms, t_c, s_c);
            if !sigmas_t.is_empty() {
                let sigmas_m = unify_distribute((t_r, ms), (s_r, ns));
                for sigma_t in &sigmas_t {
                    for sigma_m in &sigmas_m {
                        sigmas.push(compose(terms, sigma_m, sigma_t));
                    }
                }
            }
        }
    }
    sigmas
}

/// σ_M σ_t: "since the image of σ_M may contain terms, the composition needs to be in this order."
fn compose(terms: &mut Terms, sigma_m: &Contexts, sigma_t: &Rc<Pairing>) -> Unifier {
    let mut replacement = Replacement::by(&sigma_t.sigma);
    let mut contexts = sigma_m.clone();
    for tagged in contexts.values_mut().flat_map(|context| &mut context.terms) {
        tagged.term = replacement.in_term(terms, tagged.term);
    }
    Unifier { pairing: Rc::clone(sigma_t), contexts }
}

/// Algorithm 3: the first list against all permutations of the second.
fn unify_terms(terms: &mut Terms, t: &[Tagged], s: &[Tagged]) -> Vec<Rc<Pairing>> {
    let mut sigmas = vec![];
    for s in permutations(s) {
        if let Some(sigma) = unify_lists(terms, t, &s) {
            let pairs = t.iter().copied().zip(s).collect();
            sigmas.push(Rc::new(Pairing { pairs, sigma }));
        }
    }
    sigmas
}

/// The most general unifier of two lists, position by position.
fn unify_lists(terms: &mut Terms, t: &[Tagged], s: &[Tagged]) -> Option<Substitution> {
    let pairs: Vec<(Term, Term)> = t.iter().zip(s).map(|(t, s)| (t.term, s.term)).collect();
    most_general_unifier(terms, &pairs)
}

/// Algorithm 4: all of t goes into N, all of s into M.
fn unify_distribute(left: (&[Tagged], &[u32]), right: (&[Tagged], &[u32])) -> Vec<Contexts> {
    let ((t, ms), (s, ns)) = (left, right);
    let (k, l) = (ms.len(), ns.len());
    let sigmas_n = distribute(t, ns, k == 0);
    let sigmas_m = distribute(s, ms, l == 0);
    let mut sigmas = vec![];
    for sigma_m in &sigmas_m {
        for sigma_n in &sigmas_n {
            let union = sigma_m.iter().chain(sigma_n);
            sigmas.push(union.map(|(label, context)| (*label, context.clone())).collect());
        }
    }
    sigmas
}

/// Algorithm 5: every way to put the terms t into the multiset variables.
fn distribute(t: &[Tagged], ms: &[u32], exact: bool) -> Vec<Contexts> {
    let (n, k) = (t.len(), ms.len());
    if n == 0 && k == 0 {
        return vec![Contexts::new()];
    }
    let mut sigmas = vec![];
    for p in ordered_partitions(t, k) {
        let mut sigma = Contexts::new();
        for (&m, ts) in ms.iter().zip(p) {
            let variables = if exact {
                vec![]
            } else if ts.is_empty() {
                vec![MultisetVariable::Given(m)]
            } else {
                vec![MultisetVariable::Fresh(m)]
            };
            sigma.insert(m, Mmset { terms: ts, variables });
        }
        sigmas.push(sigma);
    }
    sigmas
}

/// "returns a set of tuples (F_c, F_r), where F_c is the multiset with the chosen c elements, and F_r = F \ F_c"
pub fn choose<T: Copy>(f: &[T], c: usize) -> Vec<(Vec<T>, Vec<T>)> {
    if c > f.len() {
        return vec![];
    }
    let Some((&first, others)) = f.split_first() else {
        return vec![(vec![], vec![])];
    };
    let mut tuples = vec![];
    if c > 0 {
        for (chosen, rest) in choose(others, c - 1) {
            tuples.push(([&[first], &chosen[..]].concat(), rest));
        }
    }
    for (chosen, rest) in choose(others, c) {
        tuples.push((chosen, [&[first], &rest[..]].concat()));
    }
    tuples
}

/// All orders of a list.
pub fn permutations<T: Copy>(list: &[T]) -> Vec<Vec<T>> {
    if list.is_empty() {
        return vec![vec![]];
    }
    let mut orders = vec![];
    for i in 0..list.len() {
        let others = [&list[..i], &list[i + 1..]].concat();
        for order in permutations(&others) {
            orders.push([&[list[i]], &order[..]].concat());
        }
    }
    orders
}

/// All ways to put every element of a list into one of k multisets, whose order counts.
pub fn ordered_partitions<T: Copy>(list: &[T], k: usize) -> Vec<Vec<Vec<T>>> {
    let Some((&first, others)) = list.split_first() else {
        return vec![vec![vec![]; k]];
    };
    let mut partitions = vec![];
    for i in 0..k {
        for mut partition in ordered_partitions(others, k) {
            partition[i].insert(0, first);
            partitions.push(partition);
        }
    }
    partitions
}
