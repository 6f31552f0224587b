//! What the safe functions make of the library's answers.

use pallihun::limits::*;
use pallihun::{check, entries, entry_words, list, raw, unify, Listing, Refusal, Unification};

/// {a, a | M} and {a | N}.
const EXAMPLE: [u32; 21] = [12, 4, 16, 0, 16, 2, 18, 1, 19, 1, 20, 1, 1, 1, 0, 0, 0, 0, 1, 0, 2];

/// Both sides empty.
const EMPTY: [u32; 12] = [12, 0, 12, 0, 12, 0, 12, 0, 12, 0, 12, 0];

/// x and f(x), as nodes 0 and 1, and a as node 2.
const TERMS: [u32; 25] = [12, 12, 24, 1, 25, 0, 25, 0, 25, 0, 25, 0, 0, 0, 0, 0, 1, 0, 0, 1, 1, 1, 0, 0, 0];

#[test]
fn a_finished_listing_has_all_entries() {
    let mut out = [77; 10];
    let listing = list(&EXAMPLE, &mut out);
    assert_eq!(listing, Listing::Finished(3));
    assert_eq!(entries(&EXAMPLE, listing, &out).collect::<Vec<_>>(), [[1, 2, 0], [2, 1, 0], [2, 2, 1]]);
    assert_eq!(out[9], 77);
}

#[test]
fn a_full_listing_has_the_entries_that_fit() {
    let mut out = [77; 8];
    let listing = list(&EXAMPLE, &mut out);
    assert_eq!(listing, Listing::Full(2));
    assert_eq!(entries(&EXAMPLE, listing, &out).collect::<Vec<_>>(), [[1, 2, 0], [2, 1, 0]]);
    assert_eq!(out[6..], [77, 77]);
    assert_eq!(list(&EXAMPLE, &mut []), Listing::Full(0));
}

#[test]
fn an_entry_may_have_no_word() {
    assert_eq!(check(&EMPTY), Ok(()));
    assert_eq!(entry_words(&EMPTY), Ok(0));
    let listing = list(&EMPTY, &mut []);
    assert_eq!(listing, Listing::Finished(1));
    assert_eq!(entries(&EMPTY, listing, &[]).collect::<Vec<_>>(), [&[] as &[u32]]);
}

#[test]
fn terms_are_unified() {
    let mut out = [77; MAX_BINDING_WORDS];
    assert_eq!(unify(&TERMS, 0, 2, &mut out), Unification::Unified);
    assert_eq!(out[..2], [2, 77]);
    assert_eq!(unify(&TERMS, 0, 1, &mut out), Unification::Occurs);
    assert_eq!(unify(&TERMS, 2, 1, &mut out), Unification::Clash);
    assert_eq!(unify(&TERMS, 0, 3, &mut []), Unification::Refused(Refusal::NotANode));
    assert_eq!(unify(&TERMS, 0, 2, &mut []), Unification::Refused(Refusal::TooFewLent));
    assert_eq!(out[..2], [2, 77]);
}

#[test]
fn an_empty_slice_is_refused() {
    assert_eq!(check(&[]), Err(Refusal::TooFewWords));
    assert_eq!(entry_words(&[]), Err(Refusal::TooFewWords));
    assert_eq!(unify(&[], 0, 0, &mut []), Unification::Refused(Refusal::TooFewWords));
    let listing = list(&[], &mut []);
    assert_eq!(listing, Listing::Refused(Refusal::TooFewWords));
    assert_eq!(entries(&[], listing, &[]).count(), 0);
}

#[test]
#[should_panic]
fn entries_of_other_words_are_not_given() {
    entries(&EXAMPLE, Listing::Finished(3), &[0; 8]).for_each(drop);
}

/// The definitions of the header: names without their beginning, values, and the comments beside them.
fn definitions() -> Vec<(&'static str, &'static str, &'static str)> {
    let header = include_str!("../../../include/pallihun.h").lines();
    let defined = header.filter_map(|line| line.strip_prefix("#define PALLIHUN_")?.split_once(' '));
    let beside = |(name, rest): (&'static str, &'static str)| {
        let (value, comment) = rest.split_once("/*").unwrap_or((rest, ""));
        (name, value.trim(), comment.trim_end_matches("*/").trim())
    };
    defined.map(beside).collect()
}

#[test]
fn refusals_have_the_numbers_and_words_of_the_header() {
    for (number, refusal) in (1..).zip(Refusal::ALL) {
        assert_eq!(refusal.number(), number);
        let name = format!("{refusal:?}").to_uppercase();
        let of_name = |&(defined, ..): &(&str, &str, &str)| defined.replace('_', "") == name;
        let (_, value, comment) = definitions().into_iter().find(of_name).expect("a definition");
        assert_eq!(value, number.to_string());
        assert_eq!(comment.trim_start_matches("pallihun_unify: "), refusal.to_string());
    }
}

#[test]
fn numbers_are_those_of_the_header() {
    let definitions = definitions();
    let stands = |name: &str, value: usize| {
        let values: Vec<&str> =
            definitions.iter().filter(|(defined, ..)| *defined == name).map(|(_, value, _)| *value).collect();
        assert_eq!(values, [value.to_string()], "{name}");
    };
    stands("ACCEPTED", raw::ACCEPTED as usize);
    stands("UNIFIED", raw::UNIFIED as usize);
    stands("FINISHED", raw::FINISHED as usize);
    stands("FULL", raw::FULL as usize);
    stands("CLASH", raw::CLASH as usize);
    stands("OCCURS", raw::OCCURS as usize);
    stands("HEADER_WORDS", HEADER_WORDS);
    stands("NODE_WORDS", NODE_WORDS);
    stands("MAX_NODES", MAX_NODES);
    stands("MAX_ARGUMENTS", MAX_ARGUMENTS);
    stands("MAX_TERMS", MAX_TERMS);
    stands("MAX_LABELS", MAX_LABELS);
    stands("MAX_COUNT", MAX_COUNT as usize);
    stands("MAX_VARIABLE", MAX_VARIABLE as usize);
    stands("MAX_NAME", MAX_NAME as usize);
    stands("MAX_LABEL", MAX_LABEL as usize);
    stands("MAX_TABLE_WORDS", MAX_TABLE_WORDS);
    stands("MAX_BINDING_WORDS", MAX_BINDING_WORDS);
    stands("MAX_ENTRY_WORDS", MAX_ENTRY_WORDS);
    stands("STACK_BYTES", STACK_BYTES);
}
