//! What the generator makes, and what holds of the second program on all of it.

use second::damage::{damaged, REFUSALS};
use second::families;
use second::generator::{accepted, make, FAMILIES};
use second::lengths::{listings, MOST_LENT};
use second::lines::Operation;
use second::listing::{by_algorithm_1, by_choices, listing, Entry};
use second::operations::{printed, refused, LENT, MOST_BYTES};
use second::random::Random;
use second::table::read;
use second::tally::Tally;
use std::collections::BTreeMap;

const SEED: u64 = 1;
const COUNT: u64 = 5000;

#[test]
fn every_kind_of_table_is_made() {
    let mut tally = Tally::default();
    for index in 0..COUNT {
        let made = make(SEED, index);
        tally.add(&made, &printed(&made.input));
    }
    println!("{tally}");
    let answered = |answer: &str| tally.answers.get(answer).copied().unwrap_or(0);
    assert!(answered("entries") >= 2000);
    assert!(answered("no entry") >= 500);
    assert!(answered("full") >= 200);
    for refusal in REFUSALS {
        assert!(answered(&format!("refused {refusal}")) >= 50, "refusal {refusal}");
    }
    for family in FAMILIES.map(|(family, ..)| family) {
        assert!(tally.families.get(family).copied().unwrap_or(0) >= 30, "{family}");
    }
    for feature in [
        "labels on no side",
        "labels on one side",
        "labels on both sides",
        "a repeated term",
        "equal constants at different nodes",
        "one name with two counts",
        "a variable in no term",
        "256 nodes",
        "512 arguments",
        "8 terms on a side",
        "4 labels on a side",
        "64 variables",
        "every limit at once",
        "entries of 0 words",
        "all lent words filled and finished",
        "all lent words filled and full",
    ] {
        assert!(tally.features.get(feature).copied().unwrap_or(0) >= 10, "{feature}");
    }
}

/// "more than 6,288 bytes, or a number of bytes that four does not divide": each without the other, and both.
#[test]
fn each_wrong_number_of_bytes_is_made() {
    let mut made = [0; 4];
    for length in (0..COUNT).map(|index| make(SEED, index).input.len()) {
        made[usize::from(length > MOST_BYTES) + 2 * usize::from(length % 4 != 0)] += 1;
    }
    assert!(made.iter().all(|&count| count >= 20), "{made:?}");
}

/// Lent words of every length that matters: none, one, and around one entry and the whole listing.
#[test]
fn listings_are_asked_with_many_lengths() {
    let mut asked: BTreeMap<&str, usize> = BTreeMap::new();
    for index in 0..COUNT {
        for question in listings(&make(SEED, index)) {
            let (Operation::List(lent), Ok(problem)) = (question.operation, read(&question.table)) else { continue };
            let entry = problem.entry_words();
            let listing = listing(&problem, MOST_LENT);
            let words = listing.entries.len() * entry;
            let several = !listing.full && listing.entries.len() > 1;
            for (length, here) in [
                ("none", lent == 0 && words > 0),
                ("one", lent == 1 && entry > 1),
                ("one short of an entry", lent + 1 == entry && words > 0),
                ("an entry", lent == entry && words > 0),
                ("one past an entry", lent == entry + 1 && words > 0),
                ("one short of all", several && lent + 1 == words),
                ("all but one entry", several && lent + entry == words),
                ("all", several && lent == words),
                ("one past all", several && lent == words + 1),
                ("many, finished", !listing.full && lent == MOST_LENT),
                ("many, full", listing.full && lent == MOST_LENT),
                ("any for an entry of no words", entry == 0 && lent > 0),
            ] {
                *asked.entry(length).or_default() += usize::from(here);
            }
        }
    }
    assert!(asked.values().all(|&count| count >= 20), "{asked:?}");
}

#[test]
fn a_table_is_made_from_its_seed_and_index_alone() {
    let inputs = |seed: u64| -> Vec<Vec<u8>> { (0..200).map(|index| make(seed, index).input).collect() };
    assert_eq!(inputs(7), inputs(7));
    assert_ne!(inputs(7), inputs(8));
}

/// Each way of having labels occurs among the listings that need all lent words, and so do pairs.
#[test]
fn listings_of_all_lent_words_are_of_many_kinds() {
    let mut random = Random::of(8, 0);
    let mut labels = [0; 4];
    let mut paired = 0;
    for _ in 0..200 {
        let problem = families::exact(&mut random);
        let listing = by_choices(&problem, LENT);
        assert!(!listing.full);
        assert_eq!(listing.entries.concat().len(), LENT);
        let sides = [&problem.left, &problem.right].map(|side| usize::from(!side.labels.is_empty()));
        labels[sides[0] + 2 * sides[1]] += 1;
        let pair =
            |entry: &Entry| (0..problem.left.terms.len()).any(|t| entry[t] as usize <= problem.right.terms.len());
        paired += usize::from(listing.entries.iter().any(pair));
        let shorter = families::no_more_fits(&mut random);
        let listing = by_choices(&shorter, LENT);
        assert!(!listing.full);
        let left = LENT - listing.entries.concat().len();
        assert!(left > 0 && left < shorter.entry_words());
        let longer = families::one_past(&mut random);
        let listing = by_choices(&longer, LENT);
        assert!(listing.full);
        assert_eq!(by_choices(&longer, LENT + longer.entry_words()).entries.len(), listing.entries.len() + 1);
        assert!(!by_choices(&longer, LENT + longer.entry_words()).full);
    }
    assert!(labels[1..].iter().all(|&count| count > 0) && paired > 0, "{labels:?}, {paired} paired");
}

/// A word can be the number of an application that is neither joined to the variable nor written like one that is.
#[test]
fn values_are_equal_without_being_joined() {
    let mut random = Random::of(10, 0);
    let mut found = 0;
    for _ in 0..200 {
        let problem = families::alike(&mut random);
        // After three variables and a stand the nodes over y, and then as many over x.
        let depth = (problem.nodes.len() - 4) / 2;
        let (of_y, of_x) = (3 + depth, 3 + 2 * depth);
        let digits = problem.left.terms.len() + problem.right.terms.len();
        let words: Vec<u32> =
            listing(&problem, LENT).entries.iter().flat_map(|entry| entry[digits..].to_vec()).collect();
        assert!(problem.left.terms.contains(&of_x) || problem.right.terms.contains(&of_x));
        found += usize::from(words.contains(&(of_y as u32)));
    }
    assert!(found > 100, "only {found}");
}

#[test]
fn each_damage_gets_its_refusal() {
    let mut random = Random::of(9, 0);
    for (_, problem) in accepted(9, 400).filter(|(_, problem)| problem.nodes.len() < 100) {
        for refusal in REFUSALS {
            let input = damaged(&problem, &mut random, &[refusal]);
            assert_eq!(printed(&input), refused(refusal), "{problem:?}");
        }
    }
}

#[test]
fn an_accepted_table_is_what_its_problem_writes() {
    for (table, problem) in accepted(SEED, COUNT) {
        assert_eq!(problem.table(), table);
    }
}

#[test]
fn both_modes_agree_wherever_both_can_run() {
    let mut both = 0;
    for (_, problem) in accepted(SEED + 1, COUNT) {
        if let Some(listing) = by_algorithm_1(&problem, LENT) {
            assert_eq!(listing, by_choices(&problem, LENT), "{problem:?}");
            both += 1;
        }
    }
    assert!(both >= 3000, "both modes ran on {both} tables only");
}

/// "Entries stand in rising order of their digits", each once.
#[test]
fn digits_rise_strictly() {
    for (_, problem) in accepted(SEED + 2, 2000) {
        let digits = problem.left.terms.len() + problem.right.terms.len();
        let entries = listing(&problem, LENT).entries;
        assert!(entries.windows(2).all(|two| two[0][..digits] < two[1][..digits]), "{problem:?}");
    }
}
