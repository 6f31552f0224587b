//! The library with a fault built over it.

use super::words_at;
use in_process::library::{Library, Linked};
use pallihun::raw::{self, Listing};
use second::table::read;

/// More entries than most listings have.
const MANY: u64 = 20;

/// The linked library with the fault that is named.
pub struct Faulty(pub &'static str);

/// Changes a word, which may be a guard word.
unsafe fn spoil(pointer: *mut u32) {
    *pointer ^= 1;
}

/// Whether a pointer is 4 bytes behind a multiple of 8 bytes.
fn is_behind(pointer: *const u32) -> bool {
    pointer as usize % 8 == 4
}

impl Library for Faulty {
    unsafe fn check(&self, table: *const u32, words: usize) -> u32 {
        let answer = Linked.check(table, words);
        match (self.0, answer) {
            ("table", raw::WRONG_NODE) => spoil(table.add(words - 1).cast_mut()),
            ("before the table", raw::WRONG_NODE) => spoil(table.sub(1).cast_mut()),
            ("behind the table", raw::WRONG_NODE) => spoil(table.add(words).cast_mut()),
            // Labels tried before terms.
            ("order", raw::WRONG_TERM) if has_label_0(words_at(table, words)) => return raw::WRONG_LABEL,
            ("alignment of the table", raw::WRONG_NODE) if is_behind(table) => return raw::ACCEPTED,
            ("no table", _) if table.is_null() => return raw::ACCEPTED,
            _ => {}
        }
        answer
    }

    unsafe fn unify(&self, table: *const u32, words: usize, a: u32, b: u32, out: *mut u32, lent: usize) -> u32 {
        let answer = Linked.unify(table, words, a, b, out, lent);
        let variables = read(words_at(table, words)).map_or(0, |problem| problem.variables().len());
        match (self.0, answer) {
            ("past", raw::UNIFIED) if lent > variables => spoil(out.add(variables)),
            ("far past", raw::UNIFIED) if lent > variables + 1 => spoil(out.add(lent - 1)),
            ("word", raw::UNIFIED) if variables > 8 => spoil(out.add(variables - 1)),
            ("before", raw::UNIFIED) if !out.is_null() => spoil(out.sub(1)),
            ("behind", raw::UNIFIED) if lent == variables && !out.is_null() => spoil(out.add(lent)),
            ("table", raw::OCCURS) => spoil(table.add(words - 1).cast_mut()),
            ("before the table", raw::OCCURS) => spoil(table.sub(1).cast_mut()),
            ("behind the table", raw::OCCURS) => spoil(table.add(words).cast_mut()),
            ("changed by a failure", raw::CLASH) if lent > 0 => spoil(out),
            ("changed by a refusal", raw::TOO_FEW_LENT) if lent == 1 => spoil(out),
            ("failure", raw::OCCURS) => return raw::CLASH,
            // The lent words tested before the numbers of nodes.
            ("order", raw::NOT_A_NODE) if lent < variables => return raw::TOO_FEW_LENT,
            // One word more wanted than there are variables.
            ("room", raw::UNIFIED) if lent == variables => return raw::TOO_FEW_LENT,
            ("alignment", raw::UNIFIED) if is_behind(out) && variables > 0 => spoil(out),
            ("no lent words", raw::UNIFIED) if out.is_null() => return raw::TOO_FEW_LENT,
            ("no table", _) if table.is_null() => return raw::NOT_A_NODE,
            _ => {}
        }
        answer
    }

    unsafe fn list(&self, table: *const u32, words: usize, out: *mut u32, lent: usize) -> Listing {
        let mut listing = Linked.list(table, words, out, lent);
        let written = listing.entries as usize * Linked.entry_words(table, words);
        match (self.0, listing.answer) {
            ("past", raw::FINISHED) if written < lent => spoil(out.add(written)),
            ("far past", raw::FINISHED) if written + 1 < lent => spoil(out.add(lent - 1)),
            ("word", raw::FULL) if listing.entries > MANY => spoil(out.add(written - 1)),
            // The entry that does not fit is begun.
            ("part", raw::FULL) if written < lent => spoil(out.add(written)),
            ("before", raw::FULL) if written == lent && !out.is_null() => spoil(out.sub(1)),
            ("behind", raw::FULL) if written == lent && !out.is_null() => spoil(out.add(lent)),
            ("table", raw::FINISHED) if listing.entries > MANY => spoil(table.cast_mut()),
            ("before the table", raw::FINISHED) if listing.entries > MANY => spoil(table.sub(1).cast_mut()),
            ("behind the table", raw::FINISHED) if listing.entries > MANY => spoil(table.add(words).cast_mut()),
            ("changed by a refusal", raw::WRONG_NODE) if lent > 0 => spoil(out),
            // Full, where the words just suffice; finished, where they are used up.
            ("full", raw::FINISHED) if written == lent && lent > 0 => listing.answer = raw::FULL,
            ("finished", raw::FULL) if written == lent => listing.answer = raw::FINISHED,
            // The entry that does not fit is counted too.
            ("count", raw::FULL) if listing.entries > MANY => listing.entries += 1,
            ("count of a refusal", raw::WRONG_NODE) => listing.entries = 1,
            ("order", raw::WRONG_TERM) if has_label_0(words_at(table, words)) => listing.answer = raw::WRONG_LABEL,
            ("alignment", raw::FULL) if is_behind(out) && written > 0 => spoil(out),
            ("no lent words", raw::FULL) if out.is_null() => listing.answer = raw::FINISHED,
            ("no table", _) if table.is_null() => listing.answer = raw::FINISHED,
            _ => {}
        }
        listing
    }

    unsafe fn entry_words(&self, table: *const u32, words: usize) -> usize {
        match (self.0, Linked.check(table, words)) {
            // The variables left out.
            ("entry", raw::ACCEPTED) => (*table.add(5) + *table.add(9)) as usize,
            ("entry of a refusal", raw::WRONG_NODE) => 1,
            _ => Linked.entry_words(table, words),
        }
    }
}

/// Whether a table whose sections lie end to end has a label 0.
fn has_label_0(table: &[u32]) -> bool {
    [6, 10].iter().any(|&pair| {
        let (offset, length) = (table[pair] as usize, table[pair + 1] as usize);
        table[offset..offset + length].contains(&0)
    })
}
