//! Pallihun for Rust callers: unifiers of multisets of first-order terms with labelled multiset variables.
//!
//! Three operations on a problem table, which is a slice of words: [`check`] checks it, [`unify`] unifies two of its
//! terms, [`list`] lists the unifiers of its two sides, every one, once, in a fixed order. Any words may be handed to
//! them. What they answer, and each lent word after the call, is proved of the library that this crate calls: its
//! header include/pallihun.h says what a table is, its docs/PROMISES.md what is proved. This crate itself is not proved.
//!
//! # Example
//!
//! {a, a | M} and {a | N}, with a constant a and two multiset variables M and N, which are labels 1 and 2:
//!
//! ```
//! use pallihun::{entries, list, Listing};
//!
//! let table = [
//!     12, 4, 16, 0, 16, 2, 18, 1, 19, 1, 20, 1, // where the six sections begin, and their lengths
//!     1, 1, 0, 0, // node 0: the constant a
//!     0, 0, // left terms: node 0 twice
//!     1, // left label 1, for M
//!     0, // right term: node 0
//!     2, // right label 2, for N
//! ];
//! let mut out = [0; 100];
//! let listing = list(&table, &mut out);
//! assert_eq!(listing, Listing::Finished(3));
//!
//! let entries: Vec<&[u32]> = entries(&table, listing, &out).collect();
//! assert_eq!(entries[0], [1, 2, 0]); // the first a is the right a, and the second is in N
//! assert_eq!(entries[1], [2, 1, 0]); // the second a is the right a, and the first is in N
//! assert_eq!(entries[2], [2, 2, 1]); // both are in N, and the right a is in M
//! ```

pub mod limits;
pub mod raw;
mod refusal;

pub use refusal::Refusal;

/// What unifying two terms answers.
#[derive(Clone, Copy, Debug, PartialEq, Eq, Hash)]
pub enum Unification {
    /// The binding words of a most general unifier were written.
    Unified,
    /// Two applications of different symbols would have to be equal.
    Clash,
    /// There is no clash, and a term would have to hold itself.
    Occurs,
    Refused(Refusal),
}

/// What listing a table answers, with how many entries were written.
#[derive(Clone, Copy, Debug, PartialEq, Eq, Hash)]
pub enum Listing {
    /// These are all entries.
    Finished(usize),
    /// There are more entries. These are the first ones, as many as fit.
    Full(usize),
    Refused(Refusal),
}

impl Listing {
    /// How many entries were written.
    pub fn entries(self) -> usize {
        match self {
            Listing::Finished(entries) | Listing::Full(entries) => entries,
            Listing::Refused(_) => 0,
        }
    }
}

/// Checks a table.
pub fn check(table: &[u32]) -> Result<(), Refusal> {
    // SAFETY: the slice is as many words as are said, aligned, and nothing is written.
    match unsafe { raw::pallihun_check(table.as_ptr(), table.len()) } {
        raw::ACCEPTED => Ok(()),
        refusal => Err(Refusal::of(refusal)),
    }
}

/// Unifies the terms of nodes `a` and `b` of a table.
///
/// [`Unification::Unified`] writes the first V words of `out`, V being the number of variables in the nodes section: for
/// each of them, in rising order of name, a node that has its value. No other word is changed, and none by any other
/// answer. [`limits::MAX_BINDING_WORDS`] are always enough.
pub fn unify(table: &[u32], a: u32, b: u32, out: &mut [u32]) -> Unification {
    // SAFETY: both slices are as many words as are said, aligned, and no word of `out` is one of `table`.
    match unsafe { raw::pallihun_unify(table.as_ptr(), table.len(), a, b, out.as_mut_ptr(), out.len()) } {
        raw::UNIFIED => Unification::Unified,
        raw::CLASH => Unification::Clash,
        raw::OCCURS => Unification::Occurs,
        refusal => Unification::Refused(Refusal::of(refusal)),
    }
}

/// Lists the unifiers of a table's two sides, each as an entry, one behind the other in `out`. Words behind the entries
/// are not changed.
///
/// An entry has a digit for each left term: j from 1 to m pairs it with right term j, m + q puts it in right label q; then
/// a digit for each right term: 0 if it is paired, otherwise p puts it in left label p; then the binding words of a most
/// general unifier of all pairs together, as [`unify`] writes them.
pub fn list(table: &[u32], out: &mut [u32]) -> Listing {
    // SAFETY: both slices are as many words as are said, aligned, and no word of `out` is one of `table`.
    let listing = unsafe { raw::pallihun_list(table.as_ptr(), table.len(), out.as_mut_ptr(), out.len()) };
    let entries = listing.entries as usize;
    match listing.answer {
        raw::FINISHED => Listing::Finished(entries),
        raw::FULL => Listing::Full(entries),
        refusal => Listing::Refused(Refusal::of(refusal)),
    }
}

/// How many words an entry of a table's listing has, which may be 0.
pub fn entry_words(table: &[u32]) -> Result<usize, Refusal> {
    check(table)?;
    // SAFETY: the slice is as many words as are said, aligned, and nothing is written.
    Ok(unsafe { raw::pallihun_entry_words(table.as_ptr(), table.len()) })
}

/// The entries that [`list`] left in `out`, each a slice; of a refused table, none.
///
/// # Panics
///
/// Where `out` is shorter than the entries, so that it can't be what the table was listed in.
pub fn entries<'a>(table: &[u32], listing: Listing, out: &'a [u32]) -> impl Iterator<Item = &'a [u32]> {
    let words = entry_words(table).unwrap_or(0);
    (0..listing.entries()).map(move |entry| &out[entry * words..(entry + 1) * words])
}
