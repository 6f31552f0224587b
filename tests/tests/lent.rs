//! Lent words of any length: what the operations fill and what they leave.

use second::closure::{outcome, Outcome};
use second::generator::{accepted, make};
use second::listing::by_choices;
use second::operations::{list, unify, words_of, List, Unify};
use second::random::Random;
use second::table::read;

const UNTOUCHED: u32 = 0xdead_beef;

#[test]
fn a_listing_fills_whole_entries_and_no_more() {
    let mut full = 0;
    for (table, problem) in accepted(11, 600) {
        let length = problem.entry_words();
        let complete = by_choices(&problem, 20 * length);
        let known: Vec<u32> = complete.entries.concat();
        for lent in [0, 1, length.saturating_sub(1), length, length + 1, 3 * length, 20 * length] {
            let mut words = vec![UNTOUCHED; lent];
            let answer = list(&table, &mut words);
            let fitting = lent.checked_div(length).unwrap_or(usize::MAX);
            let entries = fitting.min(complete.entries.len());
            if complete.full || complete.entries.len() > fitting {
                assert_eq!(answer, List::Full(entries));
                full += 1;
            } else {
                assert_eq!(answer, List::Finished(entries));
            }
            let written = entries * length;
            assert_eq!(words[..written], known[..written]);
            assert!(words[written..].iter().all(|&word| word == UNTOUCHED));
        }
    }
    assert!(full > 300, "only {full} listings were full");
}

#[test]
fn a_refused_call_changes_no_word() {
    for index in 0..600 {
        let Ok(table) = words_of(&make(12, index).input) else { continue };
        if let Err(refusal) = read(&table) {
            let mut words = [UNTOUCHED; 100];
            assert_eq!(list(&table, &mut words), List::Refused(refusal));
            assert_eq!(unify(&table, 0, u32::MAX, &mut words), Unify::Refused(refusal));
            assert_eq!(words, [UNTOUCHED; 100]);
        }
    }
}

#[test]
fn unifying_fills_the_binding_words_and_no_more() {
    let mut random = Random::of(13, 0);
    let mut answers = [0; 3];
    for (table, problem) in accepted(13, 600) {
        let (nodes, v) = (problem.nodes.len(), problem.variables().len());
        for _ in 0..10 {
            if nodes == 0 {
                continue;
            }
            let (a, b) = (random.below(nodes), random.below(nodes));
            let outcome = outcome(&problem, &[(a, b)]);
            for lent in [v, v + 1, v + 70] {
                let mut words = vec![UNTOUCHED; lent];
                let answer = unify(&table, a as u32, b as u32, &mut words);
                let written = if outcome == Outcome::Unified { v } else { 0 };
                assert!(words[written..].iter().all(|&word| word == UNTOUCHED));
                assert!(words[..written].iter().all(|&word| (word as usize) < nodes));
                let (index, expected) = match outcome {
                    Outcome::Unified => (0, Unify::Unified),
                    Outcome::Clash => (1, Unify::Clash),
                    Outcome::Occurs => (2, Unify::Occurs),
                };
                assert_eq!(answer, expected);
                answers[index] += 1;
            }
        }
    }
    assert!(answers.iter().all(|&count| count > 100), "unified, clash, occurs: {answers:?}");
}

/// "1 to 7, then 8: a given number is not a node. Then 9: the lent binding words are fewer than V, tested before
/// unifying."
#[test]
fn refusal_8_comes_before_9_and_both_before_unifying() {
    for (table, problem) in accepted(14, 300) {
        let (nodes, v) = (problem.nodes.len() as u32, problem.variables().len());
        for wrong in [nodes, nodes + 1, u32::MAX] {
            for (a, b) in [(wrong, 0), (0, wrong), (wrong, wrong)] {
                let mut words = vec![UNTOUCHED; v.saturating_sub(1)];
                assert_eq!(unify(&table, a, b, &mut words), Unify::Refused(8));
                assert!(words.iter().all(|&word| word == UNTOUCHED));
            }
        }
        if nodes > 0 && v > 0 {
            let mut words = vec![UNTOUCHED; v - 1];
            assert_eq!(unify(&table, 0, nodes - 1, &mut words), Unify::Refused(9));
            assert!(words.iter().all(|&word| word == UNTOUCHED));
        }
    }
}
