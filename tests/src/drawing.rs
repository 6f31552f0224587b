//! Problems drawn at random: their nodes, terms and labels.

use crate::random::Random;
use crate::table::{Node, Problem};

/// What nodes are drawn from: names of variables, and symbols.
pub struct Language {
    pub variables: Vec<u32>,
    pub constants: Vec<u32>,
    pub functions: Vec<(u32, usize)>,
}

impl Language {
    /// Some variables, two constants, and functions of which two have one name.
    pub fn with_variables(random: &mut Random, most: usize) -> Language {
        let variables = (0..random.within(0, most)).map(|_| random.below(64) as u32).collect();
        Language { variables, constants: vec![1, 2], functions: vec![(3, 1), (3, 2), (4, 2), (5, 1), (6, 3)] }
    }
}

impl Problem {
    pub fn variable(&mut self, name: u32) -> usize {
        self.nodes.push(Node::Variable(name));
        self.nodes.len() - 1
    }

    pub fn application(&mut self, name: u32, arguments: Vec<usize>) -> usize {
        self.nodes.push(Node::Application { name, arguments });
        self.nodes.len() - 1
    }

    pub fn arguments(&self) -> usize {
        let count = |node: &Node| match node {
            Node::Variable(_) => 0,
            Node::Application { arguments, .. } => arguments.len(),
        };
        self.nodes.iter().map(count).sum()
    }

    /// Adds a node of a language, over earlier ones. Late nodes are preferred as arguments, for depth.
    pub fn draw(&mut self, random: &mut Random, language: &Language) -> usize {
        let nodes = self.nodes.len();
        let room = 512 - self.arguments();
        if nodes > 0 && !random.one_in(3) {
            let (name, count) = random.pick(&language.functions);
            if count <= room {
                let arguments = (0..count).map(|_| late(random, nodes)).collect();
                return self.application(name, arguments);
            }
        }
        if !language.variables.is_empty() && random.one_in(2) {
            let name = random.pick(&language.variables);
            return self.variable(name);
        }
        self.application(random.pick(&language.constants), vec![])
    }

    /// Puts labels on neither, one or both sides, at most some a side, in random order.
    pub fn draw_labels(&mut self, random: &mut Random, most: usize) {
        let mut labels: Vec<u32> = (1..=8).map(|_| random.within(1, 65535) as u32).collect();
        labels.sort_unstable();
        labels.dedup();
        random.shuffle(&mut labels);
        let most = most.min(labels.len() / 2);
        // On both sides in half of the problems.
        let (on_left, on_right) = match random.below(6) {
            0 => (false, false),
            1 => (true, false),
            2 => (false, true),
            _ => (true, true),
        };
        if on_left {
            self.left.labels = labels.split_off(labels.len() - random.within(1, most));
        }
        if on_right {
            self.right.labels = labels.split_off(labels.len() - random.within(1, most));
        }
    }

    /// Puts terms on both sides, at most some a side, late nodes preferred.
    pub fn draw_terms(&mut self, random: &mut Random, most: usize) {
        let nodes = self.nodes.len();
        let left = random.within(0, most);
        let right = if random.one_in(2) { left } else { random.within(0, most) };
        for (side, terms) in [(&mut self.left, left), (&mut self.right, right)] {
            for _ in 0..terms {
                let repeated = !side.terms.is_empty() && random.one_in(5);
                let term = if repeated { random.pick(&side.terms) } else { late(random, nodes) };
                side.terms.push(term);
            }
        }
    }
}

/// A node, a late one rather than an early one.
fn late(random: &mut Random, nodes: usize) -> usize {
    random.below(nodes).max(random.below(nodes))
}
