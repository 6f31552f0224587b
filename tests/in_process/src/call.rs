//! One call of the library, and how it differs from what is expected.

use crate::expected::Expected;
use crate::guarded::Guarded;
use crate::library::Library;
use pallihun::raw;
use second::lines::{lent_words, Operation, Unification};

/// Where the words of a call lie, and whether NULL is handed where there are none.
#[derive(Clone, Copy, Debug, PartialEq, Eq)]
pub struct Place {
    pub table_behind: bool,
    pub out_behind: bool,
    pub null_table: bool,
    pub null_out: bool,
}

/// Calls the library, and gives the differences, if there are any: in the answer, in the lent words, in the table, or in
/// the guard words around them.
pub fn difference(
    library: &dyn Library,
    place: Place,
    table: &[u32],
    operation: Operation,
    expected: &Expected,
) -> Option<String> {
    let mut guarded_table = Guarded::new(table, place.table_behind);
    let mut out = Guarded::new(&lent_words(expected.lent.len()), place.out_behind);
    let (from, words) = (guarded_table.pointer_or_null(place.null_table), table.len());
    let (to, lent) = (out.pointer_or_null(place.null_out), expected.lent.len());
    // SAFETY: the pointers are to as many words as are said, apart from each other, with guard words around them; or they
    // are NULL, and there are none.
    let answer = unsafe {
        match operation {
            Operation::Check => checked(library.check(from, words)),
            Operation::Unify(Unification { a, b, .. }) => unified(library.unify(from, words, a, b, to, lent)),
            Operation::List(_) => listed(library.list(from, words, to, lent)),
        }
    };
    let answers =
        (answer != expected.answer).then(|| format!("answer, expected: {}\nanswer, found: {answer}", expected.answer));
    let lent = out.difference("lent words", &expected.lent);
    let table = guarded_table.difference("table", table);
    let differences: Vec<String> = [answers, lent, table].into_iter().flatten().collect();
    (!differences.is_empty()).then(|| format!("{}\n{}", called(operation, place), differences.join("\n")))
}

/// The same for the words of an entry, which are 0 for a refused table.
pub fn entry_words_difference(library: &dyn Library, place: Place, table: &[u32], expected: usize) -> Option<String> {
    let mut guarded = Guarded::new(table, place.table_behind);
    // SAFETY: as above.
    let found = unsafe { library.entry_words(guarded.pointer_or_null(place.null_table), table.len()) };
    let answers = (found != expected)
        .then(|| format!("words of an entry, expected: {expected}\nwords of an entry, found: {found}"));
    let differences: Vec<String> = [answers, guarded.difference("table", table)].into_iter().flatten().collect();
    (!differences.is_empty()).then(|| format!("entry_words, {place:?}\n{}", differences.join("\n")))
}

fn called(operation: Operation, place: Place) -> String {
    match operation {
        Operation::Check => format!("check, {place:?}"),
        Operation::Unify(Unification { a, b, lent }) => format!("unify {a} {b} with {lent} lent, {place:?}"),
        Operation::List(lent) => format!("list with {lent} lent, {place:?}"),
    }
}

fn checked(answer: u32) -> String {
    match answer {
        raw::ACCEPTED => "accepted".to_string(),
        refusal => format!("refused {refusal}"),
    }
}

fn unified(answer: u32) -> String {
    match answer {
        raw::UNIFIED => "unified".to_string(),
        raw::CLASH => "clash".to_string(),
        raw::OCCURS => "occurs".to_string(),
        refusal => format!("refused {refusal}"),
    }
}

fn listed(raw::Listing { answer, entries }: raw::Listing) -> String {
    match (answer, entries) {
        (raw::FINISHED, _) => format!("entries {entries}"),
        (raw::FULL, _) => format!("full {entries}"),
        (refusal, 0) => format!("refused {refusal}"),
        (refusal, _) => format!("refused {refusal} with {entries} entries"),
    }
}
