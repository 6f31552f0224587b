//! Tables damaged in every way that document 01 refuses.

use crate::operations::MOST_BYTES;
use crate::random::Random;
use crate::table::{end_to_end, Problem};

/// The refusals of tables and of inputs.
pub const REFUSALS: [u32; 8] = [1, 2, 3, 4, 5, 6, 7, 11];

const NODES: usize = 0;
const ARGUMENTS: usize = 1;
const TERMS: [usize; 2] = [2, 4];
const LABELS: [usize; 2] = [3, 5];

/// A table's bytes, four a word, lowest first.
pub fn bytes(table: &[u32]) -> Vec<u8> {
    table.iter().flat_map(|word| word.to_le_bytes()).collect()
}

/// A table with one damage.
pub fn once(problem: &Problem, random: &mut Random) -> Vec<u8> {
    let refusal = random.pick(&REFUSALS);
    damaged(problem, random, &[refusal])
}

/// A table with several damages at once, half of the time of refusals that all look at the sections' words.
pub fn several(problem: &Problem, random: &mut Random) -> Vec<u8> {
    let mut refusals = if random.one_in(2) { vec![4, 5, 6, 7] } else { REFUSALS.to_vec() };
    random.shuffle(&mut refusals);
    refusals.truncate(random.within(2, 3));
    damaged(problem, random, &refusals)
}

/// A table with some words written over, right or not.
pub fn altered(problem: &Problem, random: &mut Random) -> Vec<u8> {
    let mut table = problem.table();
    for _ in 0..random.within(1, 3) {
        let at = random.below(table.len());
        let old = table[at];
        table[at] = match random.below(7) {
            0 => random.word(),
            1 => u32::MAX,
            2 => old.wrapping_sub(1),
            3 => old.wrapping_add(1),
            4 => random.pick(&table),
            5 => old ^ 1 << random.below(32),
            _ => random.below(9) as u32,
        };
    }
    bytes(&table)
}

/// A table with a damage for each of some refusals: first those of sections, then those of the header, then those of the
/// input.
pub fn damaged(problem: &Problem, random: &mut Random, refusals: &[u32]) -> Vec<u8> {
    let mut sections = sections(&problem.table());
    for refusal in refusals {
        match refusal {
            3 => over_limit(random, &mut sections),
            4 => wrong_node(random, &mut sections),
            5 => wrong_argument(random, &mut sections),
            6 => wrong_term(random, &mut sections),
            7 => wrong_label(random, &mut sections),
            _ => {}
        }
    }
    let mut table = end_to_end(&sections);
    if refusals.contains(&2) {
        broken_pair(random, &mut table);
    }
    if refusals.contains(&1) {
        table.truncate(random.below(12));
    }
    let mut input = bytes(&table);
    if refusals.contains(&11) {
        wrong_bytes(random, &mut input);
    }
    input
}

type Sections = [Vec<u32>; 6];

fn sections(table: &[u32]) -> Sections {
    std::array::from_fn(|i| {
        let (offset, length) = (table[2 * i] as usize, table[2 * i + 1] as usize);
        table[offset..offset + length].to_vec()
    })
}

/// A word that is too large: the least such, or one that has the low bits of a right word, or the greatest of all.
fn too_large(random: &mut Random, least: u32, right: u32) -> u32 {
    random.pick(&[
        least,
        least + 1,
        right + (1 << 16),
        right + (1 << 17),
        right + (1 << 24),
        right + (1 << 31),
        u32::MAX,
    ])
}

/// "a pair breaks the rule of offsets or ends"
fn broken_pair(random: &mut Random, table: &mut Vec<u32>) {
    let word = random.below(12);
    let old = table[word];
    match random.below(10) {
        0 => table[0] = random.pick(&[0, 11, 13, u32::MAX]),
        1 => table[word] = old.wrapping_add(1),
        2 => table[word] = old.wrapping_sub(1),
        3 => table[word] = too_large(random, old + 1, old),
        4 => table[word] = random.word(),
        5 => {
            // Offsets that are right only if their sums are taken modulo 2^32.
            let next = random.within(1, 5);
            let end = table[2 * next].wrapping_add(table[2 * next + 1]);
            let start = random.below(12) as u32;
            table[2 * next - 1] = start.wrapping_sub(table[2 * next - 2]);
            table[2 * next] = start;
            table[2 * next + 1] = end.wrapping_sub(start);
        }
        6 => {
            // Two sections in the other order, or, where they are the same, a word after the last.
            let (pair, other) = (word / 2, random.below(6));
            table.swap(2 * pair, 2 * other);
            table.swap(2 * pair + 1, 2 * other + 1);
            if table[2 * pair..2 * pair + 2] == table[2 * other..2 * other + 2] {
                table.push(0);
            }
        }
        7 => {
            // Another first offset, from which all goes on as it should.
            table[0] = random.pick(&[0, 8, 11, 13]);
            table[1] = (table[1] + 12).saturating_sub(table[0]);
        }
        8 if table.len() > 12 => table.truncate(random.within(12, table.len() - 1)),
        _ => table.extend(vec![0; random.within(1, 5)]),
    }
}

/// "the nodes section is not a multiple of 4 words, or a section is over its limit"
fn over_limit(random: &mut Random, sections: &mut Sections) {
    let more = random.pick(&[1, 1, 2, 9]);
    let side = random.below(2);
    match random.below(5) {
        0 => {
            let words = sections[NODES].len() + random.within(1, 3);
            sections[NODES].resize(words, 0);
        }
        1 => sections[NODES].resize(4 * (256 + more), 0),
        2 => sections[ARGUMENTS].resize(512 + more, 0),
        3 => sections[TERMS[side]].resize(8 + more, 0),
        _ => {
            let labels = 1000..;
            sections[LABELS[side]].extend(labels.take(4 + more));
        }
    }
}

/// "a node has a wrong kind, name, first or count, or the counts do not add up to the arguments section"
fn wrong_node(random: &mut Random, sections: &mut Sections) {
    if random.one_in(2) {
        wrong_by_itself(random, &mut sections[NODES]);
    } else {
        wrong_for_arguments(random, sections);
    }
}

/// A node that is wrong wherever it stands, more or in place of a node without arguments.
fn wrong_by_itself(random: &mut Random, nodes: &mut Vec<u32>) {
    let node = match random.below(7) {
        0 => [too_large(random, 2, 0), 1, 0, 0],
        1 => [too_large(random, 2, 1), 1, 0, 0],
        2 => [0, too_large(random, 64, 63), 0, 0],
        3 => [0, 1, too_large(random, 1, 0), 0],
        4 => [0, 1, 0, too_large(random, 1, 0)],
        5 => [1, too_large(random, 65536, 1), 0, 0],
        _ => [1, 1, too_large(random, 1, 0), 0],
    };
    let at = 4 * random.within(0, nodes.len() / 4);
    let in_place = at + 4 <= nodes.len() && nodes[at + 3] == 0;
    nodes.splice(at..if in_place { at + 4 } else { at }, node);
}

/// A last node whose first or count does not fit the arguments, or an argument of no node.
fn wrong_for_arguments(random: &mut Random, sections: &mut Sections) {
    let first = sections[ARGUMENTS].len() as u32;
    let mut add = |node: [u32; 4], arguments: usize| {
        sections[NODES].extend(node);
        sections[ARGUMENTS].extend(vec![0; arguments]);
    };
    match random.below(9) {
        0 => add([1, 1, first, 9], 9),
        1 => add([1, 1, first, too_large(random, 9, 1)], 1),
        2 => add([1, 1, first.wrapping_sub(1), 1], 1),
        3 => add([1, 1, too_large(random, first + 1, first), 1], 1),
        4 => add([1, 1, first.max(1), 0], 0),
        5 => add([0, 1, first.max(1), 0], 0),
        6 => add([1, 1, first, random.within(1, 8) as u32], 0),
        7 => add([1, 1, 0, 0], 1),
        _ => {
            // Each node is right, and together they count more than the greatest arguments section.
            for i in 0..65 {
                add([1, 1, first + 8 * i, 8], 0);
            }
            sections[ARGUMENTS].resize(512, 0);
        }
    }
}

/// "an argument is not smaller than its node", of a node that is there or of one more
fn wrong_argument(random: &mut Random, sections: &mut Sections) {
    if sections[ARGUMENTS].is_empty() || (sections[NODES].len() < 4 * 255 && random.one_in(2)) {
        let first = sections[ARGUMENTS].len() as u32;
        let count = random.within(1, 8);
        sections[NODES].extend([1, 1, first, count as u32]);
        sections[ARGUMENTS].extend(vec![0; count]);
    }
    let at = random.below(sections[ARGUMENTS].len());
    // Its node is the first with whose count the arguments reach past it.
    let mut sum = 0;
    let reaches = |node: &[u32]| {
        sum += node[3] as usize;
        sum > at
    };
    let node = sections[NODES].chunks_exact(4).position(reaches).unwrap_or(0) as u32;
    sections[ARGUMENTS][at] = if random.one_in(4) { 256 } else { too_large(random, node, 0) };
}

/// "a term is not a node number"
fn wrong_term(random: &mut Random, sections: &mut Sections) {
    let nodes = (sections[NODES].len() / 4) as u32;
    let wrong = if random.one_in(4) { 256 } else { too_large(random, nodes, 0) };
    let side = random.pick(&TERMS);
    write_over(random, &mut sections[side], wrong);
}

/// "a label is 0, above 65535, or repeated"
fn wrong_label(random: &mut Random, sections: &mut Sections) {
    let side = random.pick(&LABELS);
    if random.one_in(2) {
        let wrong = if random.one_in(4) { 0 } else { too_large(random, 65536, 777) };
        write_over(random, &mut sections[side], wrong);
    } else {
        // Twice on one side, or once on each.
        let other = random.pick(&LABELS);
        sections[side].truncate(2);
        sections[other].truncate(2);
        sections[side].insert(0, 777);
        sections[other].push(777);
    }
}

/// Writes a word over one of a section, or into an empty one.
fn write_over(random: &mut Random, section: &mut Vec<u32>, word: u32) {
    if section.is_empty() {
        section.push(word);
    } else {
        let at = random.below(section.len());
        section[at] = word;
    }
}

/// "more than 6,288 bytes, or a number of bytes that four does not divide"
fn wrong_bytes(random: &mut Random, input: &mut Vec<u8>) {
    let more = random.pick(&[1, 2, 3, 4, 8, 1900]);
    match random.below(3) {
        0 => input.extend(vec![0; random.within(1, 3)]),
        1 => input.truncate(input.len().saturating_sub(random.within(1, 3))),
        _ => input.resize(MOST_BYTES + more, 0),
    }
    if input.is_empty() {
        input.push(0);
    }
}
