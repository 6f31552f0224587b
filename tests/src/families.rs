//! The families of problems that tables are made from.

use crate::drawing::Language;
use crate::operations::LENT;
use crate::random::Random;
use crate::table::{Node, Problem, Side};

/// A few nodes and terms.
pub fn small(random: &mut Random) -> Problem {
    drawn(random, 3, 10, 3, 2)
}

/// Some dozen nodes.
pub fn medium(random: &mut Random) -> Problem {
    drawn(random, 8, 40, 5, 3)
}

/// Up to all nodes, with many variables.
pub fn large(random: &mut Random) -> Problem {
    drawn(random, 64, 256, 8, 4)
}

/// Small, medium, or as large as can be.
pub fn any_size(random: &mut Random) -> Problem {
    match random.below(6) {
        0 => limits(random),
        1 | 2 => medium(random),
        _ => small(random),
    }
}

fn drawn(random: &mut Random, variables: usize, nodes: usize, terms: usize, labels: usize) -> Problem {
    let language = Language::with_variables(random, variables);
    let mut problem = Problem::default();
    for _ in 0..random.within(1, nodes) {
        problem.draw(random, &language);
    }
    problem.draw_terms(random, terms);
    problem.draw_labels(random, labels);
    problem
}

/// Right terms that are copies of left ones with parts replaced, so that many pairs unify.
pub fn variants(random: &mut Random) -> Problem {
    let most = random.pick(&[8, 20]);
    let mut problem = drawn(random, 4, most, 4, 3);
    problem.right.terms.clear();
    for _ in 0..random.within(0, 4) {
        let Some(original) = problem.left.terms.first().map(|_| random.pick(&problem.left.terms)) else {
            break;
        };
        let copy = variant(random, &mut problem, original, 4);
        problem.right.terms.push(copy);
    }
    random.shuffle(&mut problem.right.terms);
    problem
}

/// A copy of a node down to some depth, with parts replaced by variables.
fn variant(random: &mut Random, problem: &mut Problem, node: usize, depth: usize) -> usize {
    if depth == 0 || problem.nodes.len() > 200 || problem.arguments() > 480 {
        return node;
    }
    if random.one_in(5) {
        let name = random.within(60, 63) as u32;
        return problem.variable(name);
    }
    match problem.nodes[node].clone() {
        Node::Variable(name) => problem.variable(name),
        Node::Application { name, arguments } => {
            let copies = arguments.into_iter().map(|argument| variant(random, problem, argument, depth - 1)).collect();
            problem.application(name, copies)
        }
    }
}

/// Terms without variables, the right ones mostly the left ones in another order, some at other nodes.
pub fn ground(random: &mut Random) -> Problem {
    let language = Language::with_variables(random, 0);
    let mut problem = Problem::default();
    for _ in 0..random.within(1, 8) {
        problem.draw(random, &language);
    }
    problem.draw_terms(random, 5);
    problem.draw_labels(random, 2);
    if !random.one_in(4) {
        let left = problem.left.terms.clone();
        problem.right.terms = left.into_iter().map(|term| ground_copy(random, &mut problem, term)).collect();
        random.shuffle(&mut problem.right.terms);
    }
    // Variables that occur in no term.
    for _ in 0..random.below(3) {
        problem.variable(random.below(64) as u32);
    }
    problem
}

/// A node's term again, at the node itself or at one of its own.
fn ground_copy(random: &mut Random, problem: &mut Problem, node: usize) -> usize {
    match problem.nodes[node].clone() {
        Node::Application { name, arguments } if random.one_in(2) => problem.application(name, arguments),
        _ => node,
    }
}

/// Sides that no assignment makes equal, or nearly such.
pub fn hopeless(random: &mut Random) -> Problem {
    let mut problem = Problem::default();
    let x = problem.variable(random.below(64) as u32);
    let a = problem.application(1, vec![]);
    let b = problem.application(2, vec![]);
    let f = problem.application(3, vec![x]);
    let g = problem.application(4, vec![x]);
    let h = problem.application(4, vec![f]);
    let sides: [(&[usize], &[usize]); 10] = [
        (&[x, x], &[a, b]),
        (&[x, f], &[a, b]),
        (&[x], &[f]),
        (&[f], &[g]),
        (&[g], &[h]),
        (&[a, a], &[a, b]),
        (&[a], &[a, a]),
        (&[x, x, a], &[a, b, a]),
        (&[f, g], &[h, h]),
        (&[], &[x]),
    ];
    let (left, right) = random.pick(&sides);
    problem.left.terms = left.to_vec();
    problem.right.terms = right.to_vec();
    // The same term on both sides neither helps nor harms, and makes more choices.
    for _ in 0..random.below(4) {
        let term = random.pick(&[x, a, b, f, g, h]);
        problem.left.terms.push(term);
        problem.right.terms.push(term);
    }
    if random.one_in(2) {
        std::mem::swap(&mut problem.left, &mut problem.right);
    }
    // Labels on one side alone take no term of that side.
    match random.below(6) {
        0 => problem.left.labels = vec![random.within(1, 65535) as u32],
        1 => problem.right.labels = vec![random.within(1, 65535) as u32],
        _ => {}
    }
    random.shuffle(&mut problem.left.terms);
    random.shuffle(&mut problem.right.terms);
    problem
}

/// A variable that becomes f(x), where f(y) stands before f(x) and has the same value because x and y do: by a pair of
/// their own, or because both become a.
pub fn alike(random: &mut Random) -> Problem {
    let mut problem = Problem::default();
    let mut names: Vec<u32> = (0..64).collect();
    random.shuffle(&mut names);
    let [x, y, z] = [names[0], names[1], names[2]].map(|name| problem.variable(name));
    let a = problem.application(1, vec![]);
    let (depth, count) = (random.within(1, 3), random.within(1, 2));
    let mut tower = |bottom: usize| (0..depth).fold(bottom, |top, _| problem.application(3, vec![top; count]));
    let (_, of_x) = (tower(y), tower(x));
    let (left, right) = if random.one_in(2) { (vec![z, x], vec![of_x, y]) } else { (vec![z, x, y], vec![of_x, a, a]) };
    problem.left.terms = left;
    problem.right.terms = right;
    random.shuffle(&mut problem.right.terms);
    if random.one_in(2) {
        std::mem::swap(&mut problem.left, &mut problem.right);
    }
    if random.one_in(2) {
        problem.draw_labels(random, 2);
    }
    problem
}

/// Variables against terms that hold the next one: a cycle through several pairs, unless it is broken.
pub fn cycles(random: &mut Random) -> Problem {
    let mut problem = Problem::default();
    let length = random.within(1, 6);
    let variables: Vec<usize> = (0..length).map(|name| problem.variable(name as u32)).collect();
    let a = problem.application(1, vec![]);
    let broken = random.one_in(2);
    for i in 0..length {
        let next = if broken && i == 0 { a } else { variables[(i + 1) % length] };
        let deeper = random.below(3);
        let holder = (0..deeper).fold(next, |inner, _| problem.application(3, vec![inner]));
        let holder = if deeper == 0 && !random.one_in(3) { problem.application(4, vec![a, next]) } else { holder };
        problem.left.terms.push(variables[i]);
        problem.right.terms.push(holder);
    }
    random.shuffle(&mut problem.right.terms);
    if random.one_in(2) {
        problem.draw_labels(random, 2);
    }
    problem
}

/// Document 001's example: x_i against g(x_(i-1), x_(i-1)), in one pair of terms or in several; at times with a pair that
/// makes a cycle or a clash, or that makes a second such chain equal to the first.
pub fn exponential(random: &mut Random) -> Problem {
    let mut problem = Problem::default();
    let length = random.pick(&[3, 7, 20, 31, 60]);
    let mut names: Vec<u32> = (0..64).collect();
    if random.one_in(2) {
        random.shuffle(&mut names);
    }
    let (mut pairs, first) = doubling(&mut problem, &mut names, length);
    match random.below(5) {
        0 => pairs.push((first[0], first[length])),
        1 | 2 => {
            let b = problem.application(2, vec![]);
            pairs.push((first[random.pick(&[0, length / 2])], b));
        }
        3 if length < 32 => {
            let (others, second) = doubling(&mut problem, &mut names, length);
            pairs.extend(others);
            pairs.push((first[length], second[length]));
        }
        _ => {}
    }
    // The pairs, dealt to at most 8 terms a side, each a chain of applications.
    let terms = random.within(1, 8.min(pairs.len()));
    for i in 0..terms {
        let own: Vec<(usize, usize)> = pairs.iter().copied().skip(i).step_by(terms).collect();
        let name = 8 + i as u32;
        let chain = |problem: &mut Problem, own: &[usize]| {
            own[1..].iter().fold(own[0], |rest, &term| problem.application(name, vec![term, rest]))
        };
        let (left, right): (Vec<usize>, Vec<usize>) = own.into_iter().unzip();
        let left = chain(&mut problem, &left);
        let right = chain(&mut problem, &right);
        problem.left.terms.push(left);
        problem.right.terms.push(right);
    }
    if random.one_in(3) {
        problem.draw_labels(random, 1);
    }
    problem
}

/// The pairs x_i and g(x_(i-1), x_(i-1)), with the nodes of the variables, which have the last of some names.
fn doubling(problem: &mut Problem, names: &mut Vec<u32>, length: usize) -> (Vec<(usize, usize)>, Vec<usize>) {
    let own = names.split_off(names.len() - length - 1);
    let variables: Vec<usize> = own.into_iter().map(|name| problem.variable(name)).collect();
    let doubled = |i: usize| (variables[i], problem.application(7, vec![variables[i - 1]; 2]));
    ((1..=length).map(doubled).collect(), variables)
}

/// The terms of each side as the arguments of one term, so that all their pairs are unified together.
pub fn packed(random: &mut Random) -> Problem {
    let make = random.pick(&[small, medium, variants, hopeless, alike, cycles, exponential, large]);
    let mut problem = make(random);
    let count = problem.left.terms.len().min(problem.right.terms.len());
    if problem.nodes.len() + 2 > 256 || problem.arguments() + 2 * count > 512 {
        return problem;
    }
    let name = random.within(1, 10) as u32;
    let (left, right) = (problem.left.terms[..count].to_vec(), problem.right.terms[..count].to_vec());
    problem.left.terms = vec![problem.application(name, left)];
    problem.right.terms = vec![problem.application(name, right)];
    problem
}

/// Many terms and labels, whose listings are mostly full.
pub fn wide(random: &mut Random) -> Problem {
    let variables = random.pick(&[0, 2, 6, 20]);
    let language = Language::with_variables(random, variables);
    let mut problem = Problem::default();
    for _ in 0..random.within(6, 40) {
        problem.draw(random, &language);
    }
    let nodes = problem.nodes.len();
    problem.left.terms = (0..random.within(5, 8)).map(|_| random.below(nodes)).collect();
    problem.right.terms = (0..random.within(2, 8)).map(|_| random.below(nodes)).collect();
    problem.draw_labels(random, 4);
    problem
}

/// Every limit met at once, or most of them: 256 nodes, 512 arguments, 8 terms, 4 labels, 64 variables.
pub fn limits(random: &mut Random) -> Problem {
    let mut problem = Problem::default();
    for name in 0..64 {
        problem.variable(name);
    }
    for left in (1..=192).rev() {
        let room = 512 - problem.arguments();
        // What is left is used up by the last nodes, 8 each.
        let count = if room > 8 * (left - 1) { room.min(8) } else { random.below(room.min(4) + 1) };
        let nodes = problem.nodes.len();
        let arguments = (0..count).map(|_| random.below(nodes)).collect();
        problem.application(random.within(1, 3) as u32, arguments);
    }
    problem.left.terms = (0..8).map(|_| random.below(256)).collect();
    problem.right.terms = (0..8).map(|_| random.below(256)).collect();
    problem.left.labels = vec![65535, 1, 64, 2];
    problem.right.labels = vec![3, 65534, 63, 4];
    match random.below(4) {
        0 => problem.left.labels.clear(),
        1 => problem.right.labels.clear(),
        _ => {}
    }
    problem
}

/// The least and the greatest of each word that is right.
pub fn boundaries(random: &mut Random) -> Problem {
    let mut problem = Problem::default();
    let variables = [problem.variable(0), problem.variable(63)];
    let constants = [problem.application(0, vec![]), problem.application(65535, vec![])];
    let wide = (0..8).map(|_| random.pick(&[variables, constants].concat())).collect();
    problem.application(65535, wide);
    problem.application(0, vec![random.pick(&constants)]);
    problem.draw_terms(random, 3);
    problem.left.labels = random.pick(&[&[1][..], &[65535], &[65535, 1], &[]]).to_vec();
    problem.right.labels = random.pick(&[&[2][..], &[65534], &[63, 64], &[]]).to_vec();
    problem
}

/// Listings that need all of the lent words.
pub fn exact(random: &mut Random) -> Problem {
    counted(random, |entries, words| entries * words == LENT)
}

/// Listings that leave some of the lent words, but fewer than an entry needs.
pub fn no_more_fits(random: &mut Random) -> Problem {
    counted(random, |entries, words| entries == LENT / words && entries * words < LENT)
}

/// Constants, of which p stand on both sides and the others on one: (l k + 1)^p l^(n-p) k^(m-p) entries. Their number and
/// their words, with some variables that occur in no term, are as asked.
fn counted(random: &mut Random, asked: fn(usize, usize) -> bool) -> Problem {
    let mut found = Vec::new();
    for (n, m) in (0..=8).flat_map(|n| (0..=8).map(move |m| (n, m))) {
        for (k, l) in (0..=4).flat_map(|k| (0..=4).map(move |l| (k, l))) {
            for p in 0..=n.min(m) {
                let power = |base: usize, exponent: usize| base.pow(exponent as u32);
                let entries = power(l * k + 1, p) * power(l, n - p) * power(k, m - p);
                let variables = (0..=64).filter(|v| n + m + v > 0 && asked(entries, n + m + v));
                found.extend(variables.map(|v| (n, m, k, l, p, v)));
            }
        }
    }
    let (n, m, k, l, p, v) = random.pick(&found);
    let mut problem = Problem::default();
    for name in 0..v {
        problem.variable(name as u32);
    }
    let mut side = |terms: usize, name: usize, labels: Vec<u32>| Side {
        terms: (0..terms).map(|i| problem.application(if i < p { i } else { name } as u32, vec![])).collect(),
        labels,
    };
    let left = side(n, 100, (1..=k as u32).collect());
    let right = side(m, 200, (5..5 + l as u32).collect());
    Problem { left, right, ..problem }
}

/// Listings that need the words of one entry more than were lent.
pub fn one_past(random: &mut Random) -> Problem {
    if random.one_in(2) {
        return counted(random, |entries, words| entries == LENT / words + 1);
    }
    // {a, b, a, b | M} and {x, x, x | N1, N2, N3} have 513 entries. With 25 variables they have 32 words each.
    let mut problem = Problem::default();
    let a = problem.application(1, vec![]);
    let b = problem.application(2, vec![]);
    let variables: Vec<usize> = (0..25).map(|name| problem.variable(name)).collect();
    let x = random.pick(&variables);
    problem.left = Side { terms: vec![a, b, a, b], labels: vec![1] };
    problem.right = Side { terms: vec![x, x, x], labels: vec![2, 3, 4] };
    random.shuffle(&mut problem.left.terms);
    if random.one_in(2) {
        std::mem::swap(&mut problem.left, &mut problem.right);
    }
    problem
}
