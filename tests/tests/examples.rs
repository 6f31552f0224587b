//! Document 01's examples. a and b are the constants 1 and 2, f is 3, g is 4, p is 5; x is variable 0, y is variable 1.

use second::operations::{check, list, printed, unify, List, Unify, LENT};
use second::table::{Node, Problem, Side};

const LEFT_LABEL: u32 = 1;
const RIGHT_LABEL: u32 = 2;

fn variable(name: u32) -> Node {
    Node::Variable(name)
}

fn application(name: u32, arguments: &[usize]) -> Node {
    Node::Application { name, arguments: arguments.to_vec() }
}

fn side(terms: &[usize], labels: &[u32]) -> Side {
    Side { terms: terms.to_vec(), labels: labels.to_vec() }
}

/// The table of some nodes with nothing on its sides.
fn nodes(nodes: &[Node]) -> Vec<u32> {
    Problem { nodes: nodes.to_vec(), ..Problem::default() }.table()
}

/// The table of the constant a and two sides.
fn over_a(left: Side, right: Side) -> Vec<u32> {
    Problem { nodes: vec![application(1, &[])], left, right }.table()
}

/// What the program prints for a table.
fn prints(table: &[u32]) -> String {
    let bytes: Vec<u8> = table.iter().flat_map(|word| word.to_le_bytes()).collect();
    printed(&bytes)
}

/// The table of example 1, as document 01 prints it.
const EXAMPLE_1: [u32; 21] = [12, 4, 16, 0, 16, 2, 18, 1, 19, 1, 20, 1, 1, 1, 0, 0, 0, 0, 1, 0, 2];

#[test]
fn example_1_two_and_one() {
    assert_eq!(over_a(side(&[0, 0], &[LEFT_LABEL]), side(&[0], &[RIGHT_LABEL])), EXAMPLE_1);
    assert_eq!(prints(&EXAMPLE_1), "entries 3\n1 2 0\n2 1 0\n2 2 1\n");
}

#[test]
fn example_2_full_with_8_words() {
    let mut lent = [99; 8];
    assert_eq!(list(&EXAMPLE_1, &mut lent), List::Full(2));
    assert_eq!(lent, [1, 2, 0, 2, 1, 0, 99, 99]);
}

#[test]
fn example_3_both_sides_empty() {
    let table = Problem::default().table();
    assert_eq!(table.len(), 12);
    assert_eq!(prints(&table), "entries 1\n\n");
}

#[test]
fn example_4_a_term_without_place() {
    assert_eq!(prints(&over_a(side(&[0], &[LEFT_LABEL]), side(&[], &[]))), "entries 0\n");
}

#[test]
fn example_5_a_term_in_a_label() {
    assert_eq!(prints(&over_a(side(&[0], &[]), side(&[], &[RIGHT_LABEL]))), "entries 1\n1\n");
}

#[test]
fn example_6_a_label_alone() {
    let table = Problem { left: side(&[], &[LEFT_LABEL]), ..Problem::default() }.table();
    assert_eq!(prints(&table), "entries 1\n\n");
}

#[test]
fn example_7_two_like_entries() {
    let nodes = vec![
        application(1, &[]),
        variable(0),
        variable(1),
        application(3, &[1]),
        application(3, &[2]),
        application(3, &[0]),
    ];
    let table = Problem { nodes, left: side(&[3, 4], &[]), right: side(&[5, 5], &[]) }.table();
    assert_eq!(prints(&table), "entries 2\n1 2 0 0 0 0\n2 1 0 0 0 0\n");
}

/// The answer for two nodes, with the words that it leaves of lent ones.
fn unified(table: &[u32], a: u32, b: u32) -> (Unify, [u32; 3]) {
    let mut lent = [99; 3];
    (unify(table, a, b, &mut lent), lent)
}

#[test]
fn example_8_occurs() {
    let table = nodes(&[variable(0), application(3, &[0])]);
    assert_eq!(unified(&table, 0, 1), (Unify::Occurs, [99; 3]));
}

#[test]
fn example_9_clash_beside_occurs() {
    let table = nodes(&[
        variable(0),
        application(1, &[]),
        application(2, &[]),
        application(4, &[0]),
        application(3, &[0, 1]),
        application(3, &[3, 2]),
    ]);
    assert_eq!(unified(&table, 4, 5), (Unify::Clash, [99; 3]));
}

#[test]
fn example_10_clash_through_a_variable() {
    let table = nodes(&[
        variable(0),
        application(1, &[]),
        application(3, &[0]),
        application(5, &[0, 0]),
        application(5, &[2, 1]),
    ]);
    assert_eq!(unified(&table, 3, 4), (Unify::Clash, [99; 3]));
}

#[test]
fn example_11_one_name_with_two_counts() {
    let table = nodes(&[application(1, &[]), application(3, &[0]), application(3, &[0, 0])]);
    assert_eq!(unified(&table, 1, 2), (Unify::Clash, [99; 3]));
}

#[test]
fn example_12_two_variables() {
    let table = nodes(&[variable(1), variable(0)]);
    assert_eq!(unified(&table, 0, 1), (Unify::Unified, [1, 1, 99]));
}

#[test]
fn example_13_at_and_past_the_limits() {
    assert_eq!(check(&nodes(&[variable(63)])), None);
    assert_eq!(check(&nodes(&[variable(64)])), Some(4));
    assert_eq!(check(&nodes(&[application(1, &[]), application(3, &[0; 8])])), None);
    assert_eq!(check(&nodes(&[application(1, &[]), application(3, &[0; 9])])), Some(4));
    assert_eq!(check(&over_a(side(&[0; 8], &[]), side(&[], &[]))), None);
    assert_eq!(check(&over_a(side(&[0; 9], &[]), side(&[], &[]))), Some(3));
    assert_eq!(check(&over_a(side(&[], &[65535]), side(&[], &[]))), None);
    assert_eq!(check(&over_a(side(&[], &[0]), side(&[], &[]))), Some(7));
    assert_eq!(check(&over_a(side(&[], &[65536]), side(&[], &[]))), Some(7));
    assert_eq!(check(&EXAMPLE_1[..11]), Some(1));
}

/// "Unifying the pairs one by one from the empty substitution: {x, x} and {a, b} has no entry."
#[test]
fn pairs_are_unified_together() {
    let nodes = vec![variable(0), application(1, &[]), application(2, &[])];
    let table = Problem { nodes, left: side(&[0, 0], &[]), right: side(&[1, 2], &[]) }.table();
    assert_eq!(prints(&table), "entries 0\n");
}

/// "5 left terms, 4 right labels and 11 variables give 4^5 entries of 16 words": all that is lent, and no more.
#[test]
fn all_lent_words_are_used() {
    let mut nodes: Vec<Node> = (0..11).map(variable).collect();
    nodes.push(application(1, &[]));
    let table = Problem { nodes, left: side(&[11; 5], &[]), right: side(&[], &[5, 6, 7, 8]) }.table();
    let mut lent = vec![99; LENT];
    assert_eq!(list(&table, &mut lent), List::Finished(1024));
    assert_eq!(lent[..16], [1, 1, 1, 1, 1, 0, 1, 2, 3, 4, 5, 6, 7, 8, 9, 10]);
    assert_eq!(lent[LENT - 16..], [4, 4, 4, 4, 4, 0, 1, 2, 3, 4, 5, 6, 7, 8, 9, 10]);
    assert_eq!(list(&table, &mut lent[1..]), List::Full(1023));
}

/// "11: more than 6,288 bytes, or a number of bytes that four does not divide; tested before all else."
#[test]
fn the_input_is_tested_first() {
    for bytes in [1, 2, 3, 6289, 6292, 10000] {
        assert_eq!(printed(&vec![0; bytes]), "refused 11\n", "{bytes} bytes");
    }
    assert_eq!(printed(&[]), "refused 1\n");
    assert_eq!(printed(&[0; 44]), "refused 1\n");
    assert_eq!(printed(&[0; 6288]), "refused 2\n");
}
