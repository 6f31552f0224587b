//! Demand 3, at random: under an assignment the sides are equal exactly if it is an instance of an entry.

use second::assignments::{is_instance, read_unifier, sides_equal, Assignment};
use second::generator::accepted;
use second::listing::{by_choices, Entry};
use second::operations::LENT;
use second::random::Random;
use second::table::{Node, Problem, Side};
use second::terms::{Replacement, Shape, Substitution, Term, Terms};
use std::collections::BTreeMap;

/// A problem with its complete listing, and the terms that assignments are made of.
struct Trial {
    problem: Problem,
    entries: Vec<Entry>,
    terms: Terms,
    nodes: Vec<Term>,
    pool: Vec<Term>,
}

/// Trials with generated problems.
fn trials(seed: u64, count: u64) -> impl Iterator<Item = Trial> {
    accepted(seed, count).filter_map(|(_, problem)| Trial::of(problem))
}

impl Trial {
    /// A problem that can be gone through many times.
    fn of(problem: Problem) -> Option<Trial> {
        let listing = by_choices(&problem, LENT);
        if listing.full || listing.entries.len() > 200 || problem.nodes.len() > 40 {
            return None;
        }
        let mut terms = Terms::default();
        let nodes = terms.of_nodes(&problem);
        let a = terms.make(Shape::Application(1, vec![]));
        let b = terms.make(Shape::Application(2, vec![]));
        // A variable and a symbol that no table has, and small terms over the generator's symbols.
        let strange = terms.make(Shape::Variable(1000));
        let stranger = terms.make(Shape::Application(70000, vec![strange, a]));
        let f = terms.make(Shape::Application(3, vec![a]));
        let pool = [&[a, a, b, f, strange, stranger], &nodes[..]].concat();
        Some(Trial { problem, entries: listing.entries, terms, nodes, pool })
    }

    fn variables(&self, random: &mut Random) -> Substitution {
        // Few different values make equal terms likely.
        let few: Vec<Term> = (0..random.within(1, 3)).map(|_| random.pick(&self.pool)).collect();
        self.problem.variables().into_iter().map(|x| (x, random.pick(&few))).collect()
    }

    fn multiset(&self, random: &mut Random, most: usize) -> Vec<Term> {
        (0..random.within(0, most)).map(|_| random.pick(&self.pool)).collect()
    }

    fn values(&mut self, side: &Side, variables: &Substitution) -> Vec<Term> {
        let mut replacement = Replacement::by(variables);
        side.terms.iter().map(|&node| replacement.in_term(&mut self.terms, self.nodes[node])).collect()
    }

    /// Any variables and any labels.
    fn at_random(&mut self, random: &mut Random) -> Assignment {
        let variables = self.variables(random);
        let labels = [&self.problem.left.labels[..], &self.problem.right.labels].concat();
        let labels = labels.into_iter().map(|label| (label, self.multiset(random, 2))).collect();
        Assignment { variables, labels }
    }

    /// Any variables, and labels that make the sides equal if any can. No entry is looked at.
    fn with_equal_sides(&mut self, random: &mut Random) -> Assignment {
        let variables = self.variables(random);
        let (left, right) = (self.problem.left.clone(), self.problem.right.clone());
        let of_left = self.values(&left, &variables);
        let of_right = self.values(&right, &variables);
        let extra = if left.labels.is_empty() || right.labels.is_empty() { vec![] } else { self.multiset(random, 2) };
        let mut labels = BTreeMap::new();
        // What one side lacks of the other goes into its labels, with something that both lack.
        for (side, own, other) in [(&left, &of_left, &of_right), (&right, &of_right, &of_left)] {
            labels.extend(side.labels.iter().map(|&label| (label, vec![])));
            let lacking = [&lacking(own, other)[..], &extra].concat();
            deal(random, &mut labels, &side.labels, lacking);
        }
        Assignment { variables, labels }
    }

    /// An instance of an entry, made as document 01 says.
    fn instance(&mut self, random: &mut Random) -> Option<Assignment> {
        if self.entries.is_empty() {
            return None;
        }
        let entry = self.entries[random.below(self.entries.len())].clone();
        let (left, right) = (self.problem.left.clone(), self.problem.right.clone());
        let (n, m) = (left.terms.len(), right.terms.len());
        let unifier = read_unifier(&self.problem, &mut self.terms, &entry[n + m..]);
        let after = self.variables(random);
        let mut replacement = Replacement::by(&after);
        let variables: Substitution =
            unifier.into_iter().map(|(x, value)| (x, replacement.in_term(&mut self.terms, value))).collect();
        let of_left = self.values(&left, &variables);
        let of_right = self.values(&right, &variables);
        let mut labels: BTreeMap<u32, Vec<Term>> = BTreeMap::new();
        for (i, &label) in left.labels.iter().enumerate() {
            let put = (0..m).filter(|&s| entry[n + s] as usize == i + 1).map(|s| of_right[s]).collect();
            labels.insert(label, put);
        }
        for (i, &label) in right.labels.iter().enumerate() {
            let put = (0..n).filter(|&t| entry[t] as usize == m + i + 1).map(|t| of_left[t]).collect();
            labels.insert(label, put);
        }
        if !left.labels.is_empty() && !right.labels.is_empty() {
            let rest = self.multiset(random, 2);
            deal(random, &mut labels, &left.labels, rest.clone());
            deal(random, &mut labels, &right.labels, rest);
        }
        Some(Assignment { variables, labels })
    }

    /// An assignment with one thing changed.
    fn changed(&self, random: &mut Random, mut assignment: Assignment) -> Assignment {
        let labels: Vec<u32> = assignment.labels.keys().copied().collect();
        let variables = self.problem.variables();
        if !labels.is_empty() && random.one_in(2) {
            let multiset = assignment.labels.get_mut(&random.pick(&labels)).expect("a label");
            if multiset.is_empty() || random.one_in(2) {
                multiset.push(random.pick(&self.pool));
            } else {
                multiset.swap_remove(random.below(multiset.len()));
            }
        } else if !variables.is_empty() {
            assignment.variables.insert(random.pick(&variables), random.pick(&self.pool));
        }
        assignment
    }

    /// Whether the sides are equal, if that and being an instance agree.
    fn agreed(&mut self, assignment: &Assignment) -> Option<bool> {
        let equal = sides_equal(&self.problem, &mut self.terms, assignment);
        let terms = &mut self.terms;
        let instance = self.entries.iter().any(|entry| is_instance(&self.problem, terms, entry, assignment));
        (equal == instance).then_some(equal)
    }
}

/// The terms of a multiset that another lacks, as often as it lacks them.
fn lacking(own: &[Term], other: &[Term]) -> Vec<Term> {
    let mut own = own.to_vec();
    let mut lacking = Vec::new();
    for &term in other {
        match own.iter().position(|&candidate| candidate == term) {
            Some(at) => {
                own.swap_remove(at);
            }
            None => lacking.push(term),
        }
    }
    lacking
}

/// Puts each of some terms into one of some labels.
fn deal(random: &mut Random, labels: &mut BTreeMap<u32, Vec<Term>>, among: &[u32], terms: Vec<Term>) {
    for term in terms {
        if !among.is_empty() {
            labels.entry(random.pick(among)).or_default().push(term);
        }
    }
}

#[test]
fn sides_are_equal_exactly_for_instances() {
    let mut random = Random::of(41, 0);
    // For labels on no side, left, right, both: how many assignments made the sides unequal, and how many equal.
    let mut counts = [[0; 2]; 4];
    for mut trial in trials(41, 2500) {
        let sides = [&trial.problem.left, &trial.problem.right].map(|side| usize::from(!side.labels.is_empty()));
        for round in 0..20 {
            let assignment =
                if round % 3 == 0 { trial.at_random(&mut random) } else { trial.with_equal_sides(&mut random) };
            let changed = trial.changed(&mut random, assignment.clone());
            for assignment in [assignment, changed] {
                let equal = trial.agreed(&assignment);
                let equal = equal.unwrap_or_else(|| panic!("{:?}\n{assignment:?}", trial.problem));
                counts[sides[0] + 2 * sides[1]][usize::from(equal)] += 1;
            }
        }
    }
    println!("unequal and equal, for labels on no side, left, right, both: {counts:?}");
    assert!(counts.iter().flatten().all(|&count| count > 500), "{counts:?}");
}

#[test]
fn an_instance_of_an_entry_makes_the_sides_equal() {
    let mut random = Random::of(42, 0);
    let (mut instances, mut changes) = (0, 0);
    for mut trial in trials(42, 2500) {
        for _ in 0..10 {
            let Some(assignment) = trial.instance(&mut random) else { break };
            assert_eq!(trial.agreed(&assignment), Some(true), "{:?}\n{assignment:?}", trial.problem);
            let changed = trial.changed(&mut random, assignment);
            let equal = trial.agreed(&changed);
            instances += 1;
            changes += usize::from(!equal.unwrap_or_else(|| panic!("{:?}\n{changed:?}", trial.problem)));
        }
    }
    println!("{instances} instances, of which {changes} were none after a change");
    assert!(instances > 5000 && changes > 1000, "{instances} instances, {changes} changes");
}

/// The test can fail: without one of its entries, or with a wrong binding word, a listing is found out.
#[test]
fn a_wrong_listing_is_found_out() {
    // {x | M} and {a | N}: x with a, or x in N and a in M.
    let problem = Problem {
        nodes: vec![Node::Variable(0), Node::Application { name: 1, arguments: vec![] }],
        left: Side { terms: vec![0], labels: vec![1] },
        right: Side { terms: vec![1], labels: vec![2] },
    };
    let right = Trial::of(problem.clone()).expect("small").entries;
    assert_eq!(right, [vec![1, 0, 1], vec![2, 1, 0]]);
    let found_out = |entries: &[Entry]| {
        let mut random = Random::of(43, 0);
        let mut trial = Trial { entries: entries.to_vec(), ..Trial::of(problem.clone()).expect("small") };
        (0..1000).any(|round| {
            let equal = round % 2 == 0;
            let assignment = if equal { trial.with_equal_sides(&mut random) } else { trial.at_random(&mut random) };
            trial.agreed(&assignment).is_none()
        })
    };
    assert!(!found_out(&right));
    assert!(found_out(&right[..1]));
    assert!(found_out(&right[1..]));
    // x paired with a and yet unbound would hold of every x.
    assert!(found_out(&[vec![1, 0, 0], vec![2, 1, 0]]));
}
