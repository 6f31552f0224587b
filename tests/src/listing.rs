//! The listing of a problem in lent words: the first entries of its complete listing, as many as fit. It is made twice:
//! by Algorithm 1, its unifiers written as entries and sorted; and by going through the choices in document 01's order.

use crate::algorithms::{self, Tagged, Unifier};
use crate::table::{Problem, Side};
use crate::terms::{Term, Terms};
use crate::unification::{bindings, most_general_unifier};
use crate::words::binding_words;

/// The digits of a choice and then the binding words of its pairs.
pub type Entry = Vec<u32>;

/// The first entries, and whether more follow that do not fit.
#[derive(Clone, Debug, PartialEq, Eq)]
pub struct Listing {
    pub entries: Vec<Entry>,
    pub full: bool,
}

/// The most choices that Algorithm 1 is given to go over.
const MOST: u64 = 10_000;

/// The listing: by Algorithm 1 if it can run, otherwise choice by choice.
pub fn listing(problem: &Problem, lent: usize) -> Listing {
    by_algorithm_1(problem, lent).unwrap_or_else(|| by_choices(problem, lent))
}

/// The listing by Algorithm 1, which makes all entries before the first can be told. None where it would take too long.
pub fn by_algorithm_1(problem: &Problem, lent: usize) -> Option<Listing> {
    if choices(problem) > MOST {
        return None;
    }
    let mut entries = complete_by_algorithm_1(problem);
    let fitting = fitting(problem, lent);
    let full = entries.len() > fitting;
    entries.truncate(fitting);
    Some(Listing { entries, full })
}

/// How many whole entries fit into lent words. Any number of entries of 0 words does.
fn fitting(problem: &Problem, lent: usize) -> usize {
    lent.checked_div(problem.entry_words()).unwrap_or(usize::MAX)
}

/// The number of choices, admissible or not. It is the cost that document 000 gives for Algorithm 1, without that of
/// unifying: the sum over the number i of pairs of (n over i) (m over i) i! l^(n-i) k^(m-i).
fn choices(problem: &Problem) -> u64 {
    let (n, m) = (problem.left.terms.len(), problem.right.terms.len());
    let (k, l) = (problem.left.labels.len(), problem.right.labels.len());
    let mut sum = 0;
    let mut pairings = 1;
    for i in 0..=n.min(m) {
        sum += pairings as u64 * (l as u64).pow((n - i) as u32) * (k as u64).pow((m - i) as u32);
        pairings = pairings * (n - i) * (m - i) / (i + 1);
    }
    sum
}

/// The complete listing by Algorithm 1.
fn complete_by_algorithm_1(problem: &Problem) -> Vec<Entry> {
    let mut terms = Terms::default();
    let nodes = terms.of_nodes(problem);
    let unifiers = unifiers(problem, &mut terms, &nodes);
    let mut entries: Vec<Entry> = unifiers
        .iter()
        .map(|unifier| {
            let words = binding_words(problem, &mut terms, &nodes, &unifier.pairing.sigma);
            [digits(problem, unifier), words].concat()
        })
        .collect();
    entries.sort();
    entries
}

/// What Algorithm 1 gives for the two sides of a problem.
pub fn unifiers(problem: &Problem, terms: &mut Terms, nodes: &[Term]) -> Vec<Unifier> {
    let tagged = |side: &Side| -> Vec<Tagged> {
        let tag = |(position, &node): (usize, &usize)| Tagged { position, term: nodes[node] };
        side.terms.iter().enumerate().map(tag).collect()
    };
    let (t, s) = (tagged(&problem.left), tagged(&problem.right));
    algorithms::unify(terms, (&t, &problem.left.labels), (&s, &problem.right.labels))
}

/// The digits of the choice that a unifier was made from.
fn digits(problem: &Problem, unifier: &Unifier) -> Vec<u32> {
    let (n, m) = (problem.left.terms.len(), problem.right.terms.len());
    let mut left = vec![0; n];
    let mut right = vec![0; m];
    for (t, s) in &unifier.pairing.pairs {
        left[t.position] = s.position as u32 + 1;
    }
    for (q, label) in (1..).zip(&problem.right.labels) {
        for t in &unifier.contexts[label].terms {
            left[t.position] = m as u32 + q;
        }
    }
    for (p, label) in (1..).zip(&problem.left.labels) {
        for s in &unifier.contexts[label].terms {
            right[s.position] = p;
        }
    }
    [left, right].concat()
}

/// The listing choice by choice, in rising order of digits, until the words are used up. The pairs of every choice are
/// unified afresh. Digits whose pairs have no unifier are not gone on with, as more pairs cannot have one.
pub fn by_choices(problem: &Problem, lent: usize) -> Listing {
    let mut terms = Terms::default();
    let nodes = terms.of_nodes(problem);
    let mut walk = Walk {
        problem,
        nodes,
        terms,
        fitting: fitting(problem, lent),
        listing: Listing { entries: vec![], full: false },
    };
    walk.left(&mut vec![]);
    walk.listing
}

struct Walk<'a> {
    problem: &'a Problem,
    nodes: Vec<Term>,
    terms: Terms,
    fitting: usize,
    listing: Listing,
}

impl Walk<'_> {
    /// All choices that begin with some digits of left terms.
    fn left(&mut self, digits: &mut Vec<u32>) {
        let (n, m) = (self.problem.left.terms.len(), self.problem.right.terms.len());
        let (k, l) = (self.problem.left.labels.len(), self.problem.right.labels.len());
        let paired = digits.iter().filter(|&&digit| digit as usize <= m).count();
        // Without left labels every right term needs a partner.
        if self.listing.full || (k == 0 && m - paired > n - digits.len()) || !self.have_unifier(digits) {
            return;
        }
        if digits.len() == n {
            return self.right(digits);
        }
        for digit in 1..=(m + l) as u32 {
            let paired_twice = digit as usize <= m && digits.contains(&digit);
            if !paired_twice {
                digits.push(digit);
                self.left(digits);
                digits.pop();
            }
        }
    }

    /// All choices that begin with the digits of all left terms and some digits of right terms.
    fn right(&mut self, digits: &mut Vec<u32>) {
        let n = self.problem.left.terms.len();
        let position = digits.len() - n;
        if self.listing.full {
            return;
        }
        if position == self.problem.right.terms.len() {
            return self.entry(digits);
        }
        let paired = digits[..n].contains(&(position as u32 + 1));
        let range = if paired { 0..=0 } else { 1..=self.problem.left.labels.len() as u32 };
        for digit in range {
            digits.push(digit);
            self.right(digits);
            digits.pop();
        }
    }

    fn entry(&mut self, digits: &[u32]) {
        if self.listing.entries.len() == self.fitting {
            self.listing.full = true;
            return;
        }
        let pairs = self.pairs(digits);
        let sigma = most_general_unifier(&mut self.terms, &pairs).expect("the digits were gone on with");
        let words = binding_words(self.problem, &mut self.terms, &self.nodes, &sigma);
        self.listing.entries.push([digits, &words].concat());
    }

    /// Whether the pairs of some digits have a common unifier.
    fn have_unifier(&self, digits: &[u32]) -> bool {
        bindings(&self.terms, &self.pairs(digits)).is_some()
    }

    fn pairs(&self, digits: &[u32]) -> Vec<(Term, Term)> {
        let (left, right) = (&self.problem.left.terms, &self.problem.right.terms);
        let pair = |(&t, &digit): (&usize, &u32)| {
            let s = right.get((digit as usize).wrapping_sub(1))?;
            Some((self.nodes[t], self.nodes[*s]))
        };
        left.iter().zip(digits).filter_map(pair).collect()
    }
}
