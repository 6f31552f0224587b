//! What the generator makes where every choice has some pairs, or where symbols decide; both listings agree on it.

use second::closure::{outcome, Outcome};
use second::forced::{symbols, Chain, Extra, Failure, Order, LABELS};
use second::listing::{by_algorithm_1, by_choices};
use second::operations::LENT;
use second::random::Random;
use second::table::{Node, Problem, Side};
use std::collections::BTreeMap;

const COUNT: usize = 3000;

/// How often each of some things was met.
#[derive(Default)]
struct Met(BTreeMap<String, usize>);

impl Met {
    fn add(&mut self, thing: String) {
        *self.0.entry(thing).or_default() += 1;
    }

    #[track_caller]
    fn has(&self, thing: &str, least: usize) {
        assert!(self.0.get(thing).is_some_and(|&count| count >= least), "{thing}: {:#?}", self.0);
    }
}

/// Chains as they are drawn, with the problems that they are.
fn chains(seed: u64) -> impl Iterator<Item = (Chain, Problem)> {
    let mut random = Random::of(seed, 0);
    (0..COUNT).map(move |_| {
        let chain = Chain::draw(&mut random);
        let problem = chain.problem(&mut random);
        (chain, problem)
    })
}

const PLACES: [&str; 4] = ["nowhere", "first", "in the middle", "last"];

/// Where the failing pair is.
fn place(chain: &Chain) -> &'static str {
    PLACES[match chain.failing {
        None => 0,
        Some((0, _)) => 1,
        Some((pair, _)) => 2 + usize::from(pair == chain.length - 1),
    }]
}

const ANSWERS: [&str; 2] = ["no entry", "entries"];

/// Whether there is an entry.
fn answer(problem: &Problem) -> &'static str {
    ANSWERS[by_choices(problem, problem.entry_words()).entries.len()]
}

#[test]
fn chains_of_every_kind_are_made() {
    let mut met = Met::default();
    for (chain, problem) in chains(51) {
        let (place, labels, answer) = (place(&chain), chain.labels, answer(&problem));
        met.add(format!("{} pairs, failing {place}", chain.length));
        met.add(format!("labels {labels:?}, failing {place}"));
        met.add(format!("labels {labels:?}, exchanged {}, {answer}", chain.exchanged));
        met.add(format!("orders {:?}", chain.orders));
        if let Some((_, failure)) = chain.failing {
            met.add(format!("{failure:?}, failing {place}, deep {}", chain.deep));
        }
        for extra in &chain.extras {
            met.add(format!("{extra:?}, {answer}"));
        }
    }
    for place in PLACES {
        // Two pairs have none between them.
        for length in (2..=8).filter(|&length| length > 2 || place != "in the middle") {
            met.has(&format!("{length} pairs, failing {place}"), 50);
        }
        for labels in LABELS {
            met.has(&format!("labels {labels:?}, failing {place}"), 50);
        }
        for failure in [Failure::Clash, Failure::Occurs].iter().filter(|_| place != "nowhere") {
            met.has(&format!("{failure:?}, failing {place}, deep false"), 50);
            met.has(&format!("{failure:?}, failing {place}, deep true"), 50);
        }
    }
    for (labels, exchanged) in LABELS.into_iter().flat_map(|labels| [(labels, false), (labels, true)]) {
        met.has(&format!("labels {labels:?}, exchanged {exchanged}, entries"), 50);
        // With labels on both sides every term has a place.
        if labels != [true, true] {
            met.has(&format!("labels {labels:?}, exchanged {exchanged}, no entry"), 50);
        }
    }
    let orders = [Order::Same, Order::Reversed, Order::Shuffled];
    for orders in orders.into_iter().flat_map(|left| orders.map(|right| [left, right])) {
        met.has(&format!("orders {orders:?}"), 50);
    }
    let lone = [[true, false], [false, true]].map(Extra::Lone);
    for extra in [Extra::Variable, Extra::Variables, Extra::Constants].iter().chain(&lone) {
        met.has(&format!("{extra:?}, no entry"), 20);
        met.has(&format!("{extra:?}, entries"), 20);
    }
}

/// Pairs of nodes, taken one after another where a left term has one partner left, until all left terms are paired or one
/// has no partner; and how those pairs fail that this one could have been in.
fn forced(problem: &Problem) -> (Vec<(usize, usize)>, Vec<Outcome>) {
    let (mut left, mut right) = (problem.left.terms.clone(), problem.right.terms.clone());
    let mut pairs = vec![];
    while !left.is_empty() {
        let outcomes = |&t: &usize| -> Vec<Outcome> {
            right.iter().map(|&s| outcome(problem, &[&pairs[..], &[(t, s)]].concat())).collect()
        };
        let of_each: Vec<Vec<Outcome>> = left.iter().map(outcomes).collect();
        let partners =
            |outcomes: &Vec<Outcome>| outcomes.iter().filter(|&&outcome| outcome == Outcome::Unified).count();
        if let Some(failed) = of_each.iter().find(|outcomes| partners(outcomes) == 0) {
            return (pairs, failed.clone());
        }
        let t = of_each.iter().position(|outcomes| partners(outcomes) == 1).expect("a term with one partner");
        let s = of_each[t].iter().position(|&outcome| outcome == Outcome::Unified).expect("its partner");
        pairs.push((left.remove(t), right.remove(s)));
    }
    (pairs, vec![])
}

/// Each pair of a chain leaves the next term one partner, up to the failing pair, whose term has none. But for the first,
/// it fails only on top of the others. Where a side has no labels there is an entry exactly if no pair fails.
#[test]
fn a_chain_is_forced_up_to_the_failing_pair() {
    let mut counts = [0; 2];
    for (chain, problem) in chains(52).filter(|(chain, _)| chain.extras.is_empty()).take(500) {
        let mut seen = problem.clone();
        if chain.exchanged {
            std::mem::swap(&mut seen.left, &mut seen.right);
        }
        let (pairs, failed) = forced(&seen);
        assert_eq!(pairs.len(), chain.failing.map_or(chain.length, |(failing, _)| failing), "{problem:?}");
        let occurs = chain.failing.is_some_and(|(_, failure)| failure == Failure::Occurs);
        assert_eq!(failed.contains(&Outcome::Occurs), occurs, "{problem:?}");
        let alone = |&t: &usize| seen.right.terms.iter().all(|&s| outcome(&seen, &[(t, s)]) != Outcome::Unified);
        assert_eq!(seen.left.terms.iter().any(alone), place(&chain) == "first", "{problem:?}");
        if chain.labels != [true, true] {
            let entries = by_choices(&problem, LENT).entries.len();
            assert_eq!(entries, usize::from(chain.failing.is_none()), "{problem:?}");
            counts[entries] += 1;
        }
    }
    assert!(counts.iter().all(|&count| count > 80), "no entry, one entry: {counts:?}");
}

/// Whether two terms match by symbols: by their own, and to some depth by those of their arguments.
fn match_by_symbols(problem: &Problem, t: usize, s: usize, depth: usize) -> bool {
    match (&problem.nodes[t], &problem.nodes[s]) {
        (Node::Application { name, arguments }, Node::Application { name: other, arguments: others }) => {
            let below = || arguments.iter().zip(others).all(|(&t, &s)| match_by_symbols(problem, t, s, depth - 1));
            (name, arguments.len()) == (other, others.len()) && (depth == 0 || below())
        }
        _ => true,
    }
}

/// Whether a side has a term that no term of the other side matches to a depth, and one does to any lesser depth.
fn ends_at(problem: &Problem, side: &Side, other: &Side, depth: usize) -> bool {
    let matched = |t: usize, depth: usize| other.terms.iter().any(|&s| match_by_symbols(problem, t, s, depth));
    side.terms.iter().any(|&t| !matched(t, depth) && (depth == 0 || matched(t, depth - 1)))
}

#[test]
fn tables_that_symbols_decide_are_made() {
    let mut random = Random::of(53, 0);
    let mut met = Met::default();
    for _ in 0..COUNT {
        let problem = symbols(&mut random);
        let answer = answer(&problem);
        let (left, right) = (&problem.left, &problem.right);
        let labels = [left, right].map(|side| !side.labels.is_empty());
        let terms = left.terms.len().cmp(&right.terms.len());
        met.add(format!("labels {labels:?}, {answer}"));
        met.add(format!("{terms:?} left terms, labels {labels:?}, {answer}"));
        let variable = |&term: &usize| matches!(problem.nodes[term], Node::Variable(_));
        if left.terms.iter().chain(&right.terms).any(variable) {
            met.add(format!("a variable, {answer}"));
        }
        for (name, side, other) in [("left", left, right), ("right", right, left)] {
            let place = if other.labels.is_empty() { "to be paired" } else { "with a label" };
            for (depth, symbols) in [(0, "its symbol"), (1, "its arguments")] {
                if ends_at(&problem, side, other, depth) {
                    assert!(answer == "no entry" || place == "with a label", "{problem:?}");
                    met.add(format!("a {name} term alone by {symbols}, {place}, {answer}"));
                }
            }
        }
    }
    for (side, symbols) in ["left", "right"].into_iter().flat_map(|side| [(side, "symbol"), (side, "arguments")]) {
        met.has(&format!("a {side} term alone by its {symbols}, to be paired, no entry"), 100);
        met.has(&format!("a {side} term alone by its {symbols}, with a label, entries"), 50);
    }
    for labels in LABELS {
        met.has(&format!("labels {labels:?}, entries"), 50);
        if labels != [true, true] {
            met.has(&format!("labels {labels:?}, no entry"), 100);
        }
    }
    for answer in ANSWERS {
        met.has(&format!("a variable, {answer}"), 50);
        met.has(&format!("Less left terms, labels [true, false], {answer}"), 20);
        met.has(&format!("Greater left terms, labels [false, true], {answer}"), 20);
    }
    met.has("Less left terms, labels [false, false], no entry", 20);
    met.has("Greater left terms, labels [false, false], no entry", 20);
}

#[test]
fn both_modes_agree_where_pairs_are_forced() {
    let mut random = Random::of(54, 0);
    let symbols = (0..500).map(|_| symbols(&mut random));
    let mut both = [0; 2];
    for problem in chains(54).map(|(_, problem)| problem).take(500).chain(symbols) {
        if let Some(listing) = by_algorithm_1(&problem, LENT) {
            assert_eq!(listing, by_choices(&problem, LENT), "{problem:?}");
            both[usize::from(!listing.entries.is_empty())] += 1;
        }
    }
    assert!(both.iter().all(|&count| count > 200), "no entry, entries: {both:?}");
}
