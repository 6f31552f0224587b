//! The second program in the library's place.

use super::{lent_at, words_at};
use in_process::library::Library;
use pallihun::raw::{self, Listing};
use second::operations::{check, list, unify, List, Unify};
use second::table::read;

/// The second program, called as the library is.
pub struct SecondProgram;

impl Library for SecondProgram {
    unsafe fn check(&self, table: *const u32, words: usize) -> u32 {
        check(words_at(table, words)).unwrap_or(raw::ACCEPTED)
    }

    unsafe fn unify(&self, table: *const u32, words: usize, a: u32, b: u32, out: *mut u32, lent: usize) -> u32 {
        match unify(words_at(table, words), a, b, lent_at(out, lent)) {
            Unify::Unified => raw::UNIFIED,
            Unify::Clash => raw::CLASH,
            Unify::Occurs => raw::OCCURS,
            Unify::Refused(refusal) => refusal,
        }
    }

    unsafe fn list(&self, table: *const u32, words: usize, out: *mut u32, lent: usize) -> Listing {
        match list(words_at(table, words), lent_at(out, lent)) {
            List::Finished(entries) => Listing { answer: raw::FINISHED, entries: entries as u64 },
            List::Full(entries) => Listing { answer: raw::FULL, entries: entries as u64 },
            List::Refused(refusal) => Listing { answer: refusal, entries: 0 },
        }
    }

    unsafe fn entry_words(&self, table: *const u32, words: usize) -> usize {
        read(words_at(table, words)).map_or(0, |problem| problem.entry_words())
    }
}
