//! The comparison finds no difference in the second program itself, and finds each fault that is built over the library.

mod stand_ins;

use in_process::call::{difference, Place};
use in_process::comparison::Comparison;
use in_process::expected::Unified;
use in_process::library::Library;
use second::comparison::Count;
use second::lines::{Operation, Unification};
use second::table::{Node, Problem, Side};
use stand_ins::faulty::Faulty;
use stand_ins::second_program::SecondProgram;

/// Compares some calls of an operation, on a number of tables.
type Compare = fn(&mut Comparison, u64);

const CHECKS: Compare = |comparison, tables| comparison.checks(3, tables);
const UNIFICATIONS: Compare = |comparison, tables| comparison.unifications(3, tables);
const LISTINGS: Compare = |comparison, tables| comparison.listings(3, tables);

fn count(library: &dyn Library, compare: Compare, tables: u64) -> Count {
    let mut comparison = Comparison::of(library, Count::default());
    compare(&mut comparison, tables);
    comparison.counted
}

#[track_caller]
fn agrees(library: &dyn Library, compare: Compare, tables: u64) {
    let Count { passed, failed } = count(library, compare, tables);
    assert_eq!(failed, 0);
    assert!(passed > tables as usize, "only {passed} calls");
}

#[track_caller]
fn finds(faults: &[&'static str], compare: Compare, tables: u64) {
    agrees(&Faulty("none"), compare, tables);
    for fault in faults {
        let Count { passed, failed } = count(&Faulty(fault), compare, tables);
        assert!(failed > 0, "{fault} is not found");
        assert!(passed > failed, "{fault} is to be rare: {passed} passed, {failed} failed");
    }
}

#[test]
fn the_second_program_agrees_with_itself() {
    agrees(&SecondProgram, CHECKS, 1000);
    agrees(&SecondProgram, UNIFICATIONS, 100);
    agrees(&SecondProgram, LISTINGS, 100);
}

/// A word of the table, or a guard word around it, is changed.
const AROUND_THE_TABLE: [&str; 3] = ["table", "before the table", "behind the table"];

#[test]
fn checks_are_compared() {
    let faults = ["order", "entry", "entry of a refusal", "alignment of the table", "no table"];
    finds(&[&AROUND_THE_TABLE[..], &faults].concat(), CHECKS, 2000);
}

#[test]
fn unifications_are_compared() {
    let words = ["word", "past", "far past", "before", "behind", "changed by a failure", "changed by a refusal"];
    let answers = ["failure", "order", "room", "alignment", "no lent words", "no table"];
    finds(&[&AROUND_THE_TABLE[..], &words, &answers].concat(), UNIFICATIONS, 50);
}

#[test]
fn listings_are_compared() {
    let words = ["word", "past", "far past", "before", "behind", "part", "changed by a refusal"];
    let answers = ["full", "finished", "count", "count of a refusal", "alignment", "no lent words", "no table"];
    finds(&[&AROUND_THE_TABLE[..], &words, &answers].concat(), LISTINGS, 100);
    finds(&["order"], LISTINGS, 400);
}

#[test]
fn a_difference_says_what_was_called_and_which_word_differs() {
    let x = Problem { nodes: vec![Node::Variable(0)], left: Side::default(), right: Side::default() };
    let table = x.table();
    let place = Place { table_behind: false, out_behind: true, null_table: false, null_out: false };
    let operation = Operation::Unify(Unification { a: 0, b: 0, lent: 1 });
    let expected = Unified::of(&table, 0, 0).with(1);
    let shown = |fault| difference(&Faulty(fault), place, &table, operation, &expected);
    assert_eq!(shown("none"), None);
    let behind = shown("behind").expect("a difference");
    assert!(behind.starts_with("unify 0 0 with 1 lent, "), "{behind}");
    assert!(behind.contains("\nlent words, guard word 1, expected: "), "{behind}");
    let before = shown("before").expect("a difference");
    assert!(before.contains("\nlent words, guard word -1, expected: "), "{before}");
    let room = shown("room").expect("a difference");
    assert!(room.contains("\nanswer, expected: unified\nanswer, found: refused 9"), "{room}");
}
