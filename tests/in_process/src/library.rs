//! The operations as C callers have them.

use pallihun::raw::{self, Listing};

/// The operations by pointers and lengths. A stand-in with a fault is one too.
///
/// # Safety
///
/// A caller owes each operation what include/pallihun.h says. The comparison also sees to it that there are guard words
/// around the words that a pointer stands for, so that a stand-in may overwrite some.
#[allow(clippy::missing_safety_doc)]
pub trait Library {
    unsafe fn check(&self, table: *const u32, words: usize) -> u32;
    unsafe fn unify(&self, table: *const u32, words: usize, a: u32, b: u32, out: *mut u32, lent: usize) -> u32;
    unsafe fn list(&self, table: *const u32, words: usize, out: *mut u32, lent: usize) -> Listing;
    unsafe fn entry_words(&self, table: *const u32, words: usize) -> usize;
}

/// The library that this program is linked with.
pub struct Linked;

impl Library for Linked {
    unsafe fn check(&self, table: *const u32, words: usize) -> u32 {
        raw::pallihun_check(table, words)
    }

    unsafe fn unify(&self, table: *const u32, words: usize, a: u32, b: u32, out: *mut u32, lent: usize) -> u32 {
        raw::pallihun_unify(table, words, a, b, out, lent)
    }

    unsafe fn list(&self, table: *const u32, words: usize, out: *mut u32, lent: usize) -> Listing {
        raw::pallihun_list(table, words, out, lent)
    }

    unsafe fn entry_words(&self, table: *const u32, words: usize) -> usize {
        raw::pallihun_entry_words(table, words)
    }
}
