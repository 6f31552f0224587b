//! Document 01's closure, literally: "the smallest equivalence on nodes that joins the two given nodes, joins nodes of
//! one variable, and joins, position by position, the arguments of joined applications with one symbol."
//! It tells clash from occurs, and checks the algorithm of document 001 from outside.

use crate::table::{Node, Problem};

#[derive(Clone, Copy, Debug, PartialEq, Eq)]
pub enum Outcome {
    Unified,
    Clash,
    Occurs,
}

/// What becomes of some pairs of nodes together. "Here clash goes first."
pub fn outcome(problem: &Problem, pairs: &[(usize, usize)]) -> Outcome {
    match failures(problem, pairs) {
        Failures { clash: true, .. } => Outcome::Clash,
        Failures { occurs: true, .. } => Outcome::Occurs,
        _ => Outcome::Unified,
    }
}

/// The failures that apply.
#[derive(Clone, Copy, Debug, PartialEq, Eq)]
pub struct Failures {
    pub clash: bool,
    pub occurs: bool,
}

/// Whether some pairs of nodes together make a clash, and whether some class reaches itself.
pub fn failures(problem: &Problem, pairs: &[(usize, usize)]) -> Failures {
    let joined = closure(problem, pairs);
    Failures { clash: clash(problem, &joined), occurs: occurs(problem, &joined) }
}

/// Whether two nodes are joined by the closure of some pairs.
pub fn joined(problem: &Problem, pairs: &[(usize, usize)]) -> impl Fn(usize, usize) -> bool {
    let joined = closure(problem, pairs);
    move |a, b| joined.holds(a, b)
}

/// A relation on nodes: a row of bits a node.
#[derive(Clone, PartialEq, Eq)]
struct Relation {
    size: usize,
    rows: Vec<Vec<u64>>,
}

impl Relation {
    fn empty(size: usize) -> Self {
        Relation { size, rows: vec![vec![0; size.div_ceil(64)]; size] }
    }

    fn holds(&self, a: usize, b: usize) -> bool {
        self.rows[a][b / 64] >> (b % 64) & 1 == 1
    }

    fn add(&mut self, a: usize, b: usize) {
        self.rows[a][b / 64] |= 1 << (b % 64);
    }

    /// All pairs of nodes that are related.
    fn pairs(&self) -> Vec<(usize, usize)> {
        let all = (0..self.size).flat_map(|a| (0..self.size).map(move |b| (a, b)));
        all.filter(|&(a, b)| self.holds(a, b)).collect()
    }

    /// Makes the relation transitive: whoever reaches `via` reaches all that `via` reaches.
    fn close_transitively(&mut self) {
        for via in 0..self.size {
            let reached = self.rows[via].clone();
            for a in 0..self.size {
                if self.holds(a, via) {
                    for (word, more) in self.rows[a].iter_mut().zip(&reached) {
                        *word |= more;
                    }
                }
            }
        }
    }

    fn make_equivalence(&mut self) {
        for a in 0..self.size {
            self.add(a, a);
        }
        for (a, b) in self.pairs() {
            self.add(b, a);
        }
        self.close_transitively();
    }
}

fn closure(problem: &Problem, pairs: &[(usize, usize)]) -> Relation {
    let nodes = &problem.nodes;
    let mut joined = Relation::empty(nodes.len());
    for &(a, b) in pairs {
        joined.add(a, b);
    }
    for (a, node) in nodes.iter().enumerate() {
        for (b, other) in nodes.iter().enumerate() {
            if matches!((node, other), (Node::Variable(x), Node::Variable(y)) if x == y) {
                joined.add(a, b);
            }
        }
    }
    loop {
        joined.make_equivalence();
        let before = joined.clone();
        for (a, b) in before.pairs() {
            if let Some(arguments) = with_one_symbol(&nodes[a], &nodes[b]) {
                for (&c, &d) in arguments.0.iter().zip(arguments.1) {
                    joined.add(c, d);
                }
            }
        }
        if joined == before {
            return joined;
        }
    }
}

/// The arguments of two applications with one symbol.
fn with_one_symbol<'a>(a: &'a Node, b: &'a Node) -> Option<(&'a [usize], &'a [usize])> {
    match (a, b) {
        (Node::Application { name, arguments }, Node::Application { name: other, arguments: others })
            if (name, arguments.len()) == (other, others.len()) =>
        {
            Some((arguments, others))
        }
        _ => None,
    }
}

/// "Clash: two applications of different symbols are joined."
fn clash(problem: &Problem, joined: &Relation) -> bool {
    let application = |a: usize| matches!(problem.nodes[a], Node::Application { .. });
    let one_symbol = |a: usize, b: usize| with_one_symbol(&problem.nodes[a], &problem.nodes[b]).is_some();
    joined.pairs().into_iter().any(|(a, b)| application(a) && application(b) && !one_symbol(a, b))
}

/// "some class reaches itself through arguments"
fn occurs(problem: &Problem, joined: &Relation) -> bool {
    let mut reaches = Relation::empty(joined.size);
    for (a, node) in problem.nodes.iter().enumerate() {
        if let Node::Application { arguments, .. } = node {
            for of_class in (0..joined.size).filter(|&b| joined.holds(a, b)) {
                for &argument in arguments {
                    reaches.add(of_class, argument);
                }
            }
        }
    }
    reaches.close_transitively();
    reaches.pairs().into_iter().any(|(a, b)| joined.holds(a, b))
}
