//! A problem table, read as document 01 says, with its refusals 1 to 7.

/// "A node is four words: kind, name, first, count."
#[derive(Clone, Debug, PartialEq, Eq)]
pub enum Node {
    Variable(u32),
    Application { name: u32, arguments: Vec<usize> },
}

/// The terms of a side, by their nodes, and its labels.
#[derive(Clone, Debug, Default, PartialEq, Eq)]
pub struct Side {
    pub terms: Vec<usize>,
    pub labels: Vec<u32>,
}

/// An accepted table.
#[derive(Clone, Debug, Default, PartialEq, Eq)]
pub struct Problem {
    pub nodes: Vec<Node>,
    pub left: Side,
    pub right: Side,
}

/// The words of the header: "Words 0 to 11 are six pairs of offset and length".
const HEADER: usize = 12;

/// The most words of each section: "At most 256 nodes, 512 arguments, 8 terms a side, 4 labels a side."
const LIMITS: [usize; 6] = [4 * 256, 512, 8, 4, 8, 4];

/// Reads a table, or gives the first refusal of 1 to 7 whose condition holds.
pub fn read(table: &[u32]) -> Result<Problem, u32> {
    let sections = sections(table)?;
    let [nodes, arguments, left_terms, left_labels, right_terms, right_labels] = sections;
    if nodes.len() % 4 != 0 || (0..6).any(|i| sections[i].len() > LIMITS[i]) {
        return Err(3);
    }
    let nodes = read_nodes(nodes, arguments)?;
    let too_large = |(number, node): (usize, &Node)| match node {
        Node::Variable(_) => false,
        Node::Application { arguments, .. } => arguments.iter().any(|&argument| argument >= number),
    };
    if nodes.iter().enumerate().any(too_large) {
        return Err(5);
    }
    if [left_terms, right_terms].concat().iter().any(|&term| term as usize >= nodes.len()) {
        return Err(6);
    }
    let labels = [left_labels, right_labels].concat();
    let repeated = |i: usize| labels[..i].contains(&labels[i]);
    if (0..labels.len()).any(|i| labels[i] == 0 || labels[i] > 65535 || repeated(i)) {
        return Err(7);
    }
    let side = |terms: &[u32], labels: &[u32]| Side {
        terms: terms.iter().map(|&term| term as usize).collect(),
        labels: labels.to_vec(),
    };
    Ok(Problem { nodes, left: side(left_terms, left_labels), right: side(right_terms, right_labels) })
}

/// The six sections, or refusal 1 or 2. Ends are summed in 64 bits: no sum of words wraps.
fn sections(table: &[u32]) -> Result<[&[u32]; 6], u32> {
    if table.len() < HEADER {
        return Err(1);
    }
    let mut end = HEADER as u64;
    let mut ends = [(0, 0); 6];
    for (i, pair) in table[..HEADER].chunks(2).enumerate() {
        let (offset, length) = (u64::from(pair[0]), u64::from(pair[1]));
        if offset != end {
            return Err(2);
        }
        end = offset + length;
        ends[i] = (offset, end);
    }
    if end != table.len() as u64 {
        return Err(2);
    }
    Ok(ends.map(|(start, end)| &table[start as usize..end as usize]))
}

/// The nodes, or refusal 4.
fn read_nodes(words: &[u32], arguments: &[u32]) -> Result<Vec<Node>, u32> {
    let mut nodes = Vec::new();
    let mut sum = 0;
    let mut runs = Vec::new();
    for node in words.chunks(4) {
        let [kind, name, first, count] = [node[0], node[1], node[2], node[3]];
        let right = match kind {
            0 => name <= 63 && first == 0 && count == 0,
            1 => name <= 65535 && count <= 8 && first == if count == 0 { 0 } else { sum },
            _ => false,
        };
        if !right {
            return Err(4);
        }
        runs.push((kind, name, sum as usize..(sum + count) as usize));
        sum += count;
    }
    if sum as usize != arguments.len() {
        return Err(4);
    }
    for (kind, name, run) in runs {
        nodes.push(match kind {
            0 => Node::Variable(name),
            _ => Node::Application {
                name,
                arguments: arguments[run].iter().map(|&argument| argument as usize).collect(),
            },
        });
    }
    Ok(nodes)
}

impl Problem {
    /// The numbers of the variables present in the nodes section, rising.
    pub fn variables(&self) -> Vec<u32> {
        let mut variables: Vec<u32> = self
            .nodes
            .iter()
            .filter_map(|node| match node {
                Node::Variable(name) => Some(*name),
                Node::Application { .. } => None,
            })
            .collect();
        variables.sort_unstable();
        variables.dedup();
        variables
    }

    /// The words of an entry: "With V variables present an entry is n + m + V words."
    pub fn entry_words(&self) -> usize {
        self.left.terms.len() + self.right.terms.len() + self.variables().len()
    }

    /// The table that reads as this problem.
    pub fn table(&self) -> Vec<u32> {
        let mut nodes = Vec::new();
        let mut arguments: Vec<u32> = Vec::new();
        for node in &self.nodes {
            match node {
                Node::Variable(name) => nodes.extend([0, *name, 0, 0]),
                Node::Application { name, arguments: own } => {
                    let first = if own.is_empty() { 0 } else { arguments.len() as u32 };
                    nodes.extend([1, *name, first, own.len() as u32]);
                    arguments.extend(own.iter().map(|&argument| argument as u32));
                }
            }
        }
        let terms = |side: &Side| side.terms.iter().map(|&term| term as u32).collect();
        let (left, right) = (&self.left, &self.right);
        end_to_end(&[nodes, arguments, terms(left), left.labels.clone(), terms(right), right.labels.clone()])
    }
}

/// Six sections with their header before them.
pub fn end_to_end(sections: &[Vec<u32>; 6]) -> Vec<u32> {
    let mut table = Vec::new();
    let mut offset = HEADER as u32;
    for section in sections {
        table.extend([offset, section.len() as u32]);
        offset += section.len() as u32;
    }
    table.extend(sections.concat());
    table
}
