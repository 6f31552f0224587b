//! Problems that have pairs in every choice, and problems that symbols decide before any terms are unified.

use crate::random::Random;
use crate::table::Problem;

/// The name of the symbol that joins two keys.
const LINK: u32 = 3;

/// The name of a chain's first key. Each next key has the next name.
const FIRST_KEY: u32 = 100;

/// A forced chain: f(k0,x1), f(x1,x2), f(x2,x3), .. against f(k0,k1), f(k1,k2), f(k2,k3), .. With the pairs before it
/// unified, each term has one partner left. At a failing pair it has none: another key is asked for than was given.
#[derive(Clone, Debug)]
pub struct Chain {
    /// The number of pairs.
    pub length: usize,
    /// The pair that fails on top of those before it, counted from 0.
    pub failing: Option<(usize, Failure)>,
    /// Whether keys have an argument, in which they may differ, or are constants.
    pub deep: bool,
    /// Further terms of each side.
    pub extras: Vec<Extra>,
    /// The order of the left terms and of the right ones, before the sides are exchanged.
    pub orders: [Order; 2],
    pub exchanged: bool,
    /// Whether the left side has labels, and whether the right side has.
    pub labels: [bool; 2],
}

#[derive(Clone, Copy, Debug, PartialEq, Eq)]
pub enum Failure {
    Clash,
    Occurs,
}

#[derive(Clone, Copy, Debug, PartialEq, Eq)]
pub enum Order {
    Same,
    Reversed,
    Shuffled,
}

#[derive(Clone, Copy, Debug, PartialEq, Eq)]
pub enum Extra {
    /// A variable on one side, which everything matches, and a constant on the other.
    Variable,
    /// A variable on each side.
    Variables,
    /// A constant on each side, which match each other.
    Constants,
    /// A constant on the left side alone, or on the right side alone, which no application matches.
    Lone([bool; 2]),
}

/// Labels on no side, on the left, on the right, on both.
pub const LABELS: [[bool; 2]; 4] = [[false, false], [true, false], [false, true], [true, true]];

impl Chain {
    pub fn draw(random: &mut Random) -> Chain {
        let length = random.within(2, 8);
        let middle = random.within(1, length.max(3) - 2);
        let place = random.pick(&[None, Some(0), Some(middle), Some(length - 1)]);
        let failure = random.pick(&[Failure::Clash, Failure::Occurs]);
        let extra = [
            Extra::Variable,
            Extra::Variables,
            Extra::Constants,
            Extra::Lone([true, false]),
            Extra::Lone([false, true]),
        ];
        let extras = if random.one_in(2) { 0 } else { random.within(0, 2.min(8 - length)) };
        let mut order = || random.pick(&[Order::Same, Order::Reversed, Order::Shuffled]);
        Chain {
            length,
            failing: place.map(|place| (place, failure)),
            orders: [order(), order()],
            deep: random.one_in(2),
            extras: (0..extras).map(|_| random.pick(&extra)).collect(),
            exchanged: random.one_in(2),
            labels: labelled(random),
        }
    }

    /// A problem that is this chain.
    pub fn problem(&self, random: &mut Random) -> Problem {
        let mut problem = Problem::default();
        let mut names: Vec<u32> = (0..64).collect();
        random.shuffle(&mut names);
        self.links(random, &mut problem, &mut names);
        for (name, extra) in (10..).zip(&self.extras) {
            let [left, right] = extra.terms(random, &mut problem, &mut names, name);
            problem.left.terms.extend(left);
            problem.right.terms.extend(right);
        }
        for (order, side) in self.orders.iter().zip([&mut problem.left, &mut problem.right]) {
            match order {
                Order::Same => {}
                Order::Reversed => side.terms.reverse(),
                Order::Shuffled => random.shuffle(&mut side.terms),
            }
        }
        if self.exchanged {
            std::mem::swap(&mut problem.left, &mut problem.right);
        }
        problem.put_labels(random, self.labels);
        problem
    }

    /// The terms of the chain itself. Their variables have the last of some names.
    fn links(&self, random: &mut Random, problem: &mut Problem, names: &mut Vec<u32>) {
        let variables: Vec<usize> = (0..self.length).map(|_| problem.new_variable(names)).collect();
        let parts = Parts::of(problem, names);
        let seams: Vec<(usize, usize)> = (0..=self.length).map(|i| self.seam(random, problem, &parts, i)).collect();
        for i in 0..self.length {
            let known = if i == 0 { seams[0].0 } else { variables[i - 1] };
            let left = problem.application(LINK, vec![known, variables[i]]);
            let right = problem.application(LINK, vec![seams[i].1, seams[i + 1].0]);
            problem.left.terms.push(left);
            problem.right.terms.push(right);
        }
    }

    /// The key that the pairs before a pair give its left term, and the one that its right term asks for.
    fn seam(&self, random: &mut Random, problem: &mut Problem, parts: &Parts, pair: usize) -> (usize, usize) {
        let name = FIRST_KEY + pair as u32;
        let Parts { a, b, y, w, of_w } = *parts;
        let (given, asked) = match self.failing {
            Some((failing, Failure::Occurs)) if failing == pair => random.pick(&[(w, of_w), (of_w, w)]),
            Some((failing, Failure::Clash)) if failing == pair && self.deep => (a, b),
            Some((failing, Failure::Clash)) if failing == pair => return (problem.application(name, vec![]), b),
            _ if self.deep => random.pick(&[(a, a), (a, y), (y, a), (y, y)]),
            _ => return (problem.application(name, vec![]), problem.application(name, vec![])),
        };
        (problem.application(name, vec![given]), problem.application(name, vec![asked]))
    }
}

impl Extra {
    /// A left and a right term, or one of them alone. A constant has the name that is given, a variable the last of some.
    fn terms(self, random: &mut Random, problem: &mut Problem, names: &mut Vec<u32>, name: u32) -> [Option<usize>; 2] {
        let mut terms = match self {
            Extra::Variable => [problem.new_variable(names), problem.application(name, vec![])],
            Extra::Variables => [problem.new_variable(names), problem.new_variable(names)],
            Extra::Constants => [problem.application(name, vec![]), problem.application(name, vec![])],
            Extra::Lone(on) => return on.map(|on| on.then(|| problem.application(name, vec![]))),
        };
        random.shuffle(&mut terms);
        terms.map(Some)
    }
}

/// What the arguments of keys are made of.
struct Parts {
    a: usize,
    b: usize,
    y: usize,
    w: usize,
    /// s(w)
    of_w: usize,
}

impl Parts {
    fn of(problem: &mut Problem, names: &mut Vec<u32>) -> Parts {
        let (a, b) = (problem.application(1, vec![]), problem.application(2, vec![]));
        let (y, w) = (problem.new_variable(names), problem.new_variable(names));
        Parts { a, b, y, w, of_w: problem.application(5, vec![w]) }
    }
}

/// A forced chain of any kind.
pub fn chain(random: &mut Random) -> Problem {
    Chain::draw(random).problem(random)
}

/// Terms in twos of one symbol whose arguments have the same symbols, unless they are variables. At times one has a symbol
/// of its own, as a term or as an argument, and one side has fewer terms.
pub fn symbols(random: &mut Random) -> Problem {
    let mut problem = Problem::default();
    let x = problem.variable(random.below(32) as u32);
    let y = problem.variable(random.within(32, 63) as u32);
    let a = problem.application(1, vec![]);
    let b = problem.application(2, vec![]);
    let small = [x, y, a, b];
    let terms = random.within(1, 6);
    // One place of all, as the left or right term of two, or none.
    let odd = if random.one_in(2) { 2 * terms } else { random.below(2 * terms) };
    let variables = random.pick(&[4, 8, 1000]);
    for i in 0..terms {
        let (name, count) = random.pick(&[(3, 2), (3, 1), (4, 2), (6, 3)]);
        let inner: Vec<(u32, usize)> = (0..count).map(|_| random.pick(&[(1, 0), (2, 0), (5, 1), (5, 2)])).collect();
        for (place, side) in [2 * i, 2 * i + 1].into_iter().zip([0, 1]) {
            let (mut name, mut inner) = (name, inner.clone());
            match random.below(4) {
                _ if place != odd => {}
                0 => name = 9,
                _ => inner[random.below(count)] = random.pick(&[(1, 1), (9, 0), (5, 3)]),
            }
            let mut arguments = vec![];
            for (name, count) in inner {
                let own = (0..count).map(|_| random.pick(&small)).collect();
                let variable = random.one_in(variables);
                arguments.push(if variable { random.pick(&[x, y]) } else { problem.application(name, own) });
            }
            let variable = random.one_in(2 * variables);
            let term = if variable { random.pick(&[x, y]) } else { problem.application(name, arguments) };
            [&mut problem.left, &mut problem.right][side].terms.push(term);
        }
    }
    random.shuffle(&mut problem.left.terms);
    random.shuffle(&mut problem.right.terms);
    if random.one_in(3) {
        let fewer = random.below(terms);
        let side = random.below(2);
        [&mut problem.left, &mut problem.right][side].terms.truncate(fewer);
    }
    let labels = labelled(random);
    problem.put_labels(random, labels);
    problem
}

/// Which sides have labels: seldom both, as no term must be paired then.
fn labelled(random: &mut Random) -> [bool; 2] {
    if random.one_in(8) {
        [true, true]
    } else {
        random.pick(&LABELS[..3])
    }
}

impl Problem {
    /// A variable with the last of some names.
    fn new_variable(&mut self, names: &mut Vec<u32>) -> usize {
        self.variable(names.pop().expect("64 names"))
    }

    /// Puts labels on the sides that are to have some.
    fn put_labels(&mut self, random: &mut Random, on: [bool; 2]) {
        for (first, on, side) in [(1, on[0], &mut self.left), (5, on[1], &mut self.right)] {
            if on {
                side.labels = (first..first + random.within(1, 2) as u32).collect();
            }
        }
    }
}
