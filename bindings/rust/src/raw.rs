//! The library as C callers have it: include/pallihun.h, which says what a caller owes and what each call answers.

/// Answers: the work is done.
pub const ACCEPTED: u32 = 0;
pub const UNIFIED: u32 = 0;
pub const FINISHED: u32 = 0;

/// Refusals.
pub const TOO_FEW_WORDS: u32 = 1;
pub const BROKEN_PAIR: u32 = 2;
pub const OVER_LIMIT: u32 = 3;
pub const WRONG_NODE: u32 = 4;
pub const WRONG_ARGUMENT: u32 = 5;
pub const WRONG_TERM: u32 = 6;
pub const WRONG_LABEL: u32 = 7;
pub const NOT_A_NODE: u32 = 8;
pub const TOO_FEW_LENT: u32 = 9;

/// The entries need more words than are lent.
pub const FULL: u32 = 10;

/// Two terms that have no unifier.
pub const CLASH: u32 = 1000;
pub const OCCURS: u32 = 1001;

/// What listing a table answers: `pallihun_listing` of the header.
#[repr(C)]
#[derive(Clone, Copy, Debug, PartialEq, Eq)]
pub struct Listing {
    /// `FINISHED`, `FULL`, or the refusal: 1 to 7.
    pub answer: u32,
    /// How many entries were written; 0 for a refusal.
    pub entries: u64,
}

extern "C" {
    pub fn pallihun_check(table: *const u32, words: usize) -> u32;
    pub fn pallihun_unify(table: *const u32, words: usize, a: u32, b: u32, out: *mut u32, lent: usize) -> u32;
    pub fn pallihun_list(table: *const u32, words: usize, out: *mut u32, lent: usize) -> Listing;
    pub fn pallihun_entry_words(table: *const u32, words: usize) -> usize;
}
