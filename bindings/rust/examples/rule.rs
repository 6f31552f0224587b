//! Applies a rule of linear logic, tensor right, from its conclusion to its premises:
//!
//! ```text
//! Gamma |- A    Delta |- B
//! ------------------------
//!  Gamma, Delta |- A ⊗ B
//! ```
//!
//! The context of the conclusion is { | Gamma, Delta}: two labels, and no terms. Unified with the context {p, q} of a
//! sequent, it gives every way to split that context between the premises.

use pallihun::limits::{HEADER_WORDS, MAX_ENTRY_WORDS};
use pallihun::{entries, list, Listing};

/// A table of six sections: nodes, arguments, left terms, left labels, right terms, right labels.
fn table(sections: [&[u32]; 6]) -> Vec<u32> {
    let mut header = Vec::new();
    let mut offset = HEADER_WORDS;
    for section in sections {
        header.extend([offset as u32, section.len() as u32]);
        offset += section.len();
    }
    [header, sections.concat()].concat()
}

fn main() {
    let context = ["p", "q"];
    let nodes = [1, 0, 0, 0, /* node 0: p */ 1, 1, 0, 0 /* node 1: q */];
    let (gamma, delta) = (1, 2);
    let table = table([&nodes, &[], &[], &[gamma, delta], &[0, 1], &[]]);
    let mut out = [0; 4 * MAX_ENTRY_WORDS];
    let listing = list(&table, &mut out);
    let Listing::Finished(count) = listing else { panic!("the listing is {listing:?}") };
    println!("p, q |- A ⊗ B follows by tensor right in {count} ways, from the premises");
    for digits in entries(&table, listing, &out) {
        // A digit for each right term: 1 puts it in the first left label, Gamma, 2 in the second, Delta.
        let part = |label: u32| {
            let terms = context.iter().zip(digits).filter(|(_, &digit)| digit == label);
            terms.map(|(term, _)| *term).collect::<Vec<_>>().join(", ")
        };
        let premises = [("A", part(1)), ("B", part(2))].map(|(goal, part)| format!("{part} |- {goal}"));
        println!("  {} and {}", premises[0].trim(), premises[1].trim());
    }
}
