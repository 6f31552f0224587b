//! All calls on generated tables.

use crate::asked::{listing_lengths, pairs, unification_lengths};
use crate::call::{difference, entry_words_difference, Place};
use crate::expected::{checked, Expected, Listed, Unified};
use crate::library::Library;
use second::comparison::Count;
use second::generator::{make, Made};
use second::lines::{Operation, Unification};
use second::random::Random;
use second::table::{read, Problem};
use second::tally::Tally;

/// A library in comparison: what passed, and what the calls were.
pub struct Comparison<'a> {
    library: &'a dyn Library,
    pub counted: Count,
    pub tally: Tally,
    /// Calls with NULL in place of a table or of lent words.
    pub null: usize,
    /// Draws where words lie.
    random: Random,
}

/// A table that is gone over, its words, and how the second program reads it.
struct Given {
    made: Made,
    table: Vec<u32>,
    problem: Result<Problem, u32>,
}

impl<'a> Comparison<'a> {
    /// With what was counted before.
    pub fn of(library: &'a dyn Library, counted: Count) -> Comparison<'a> {
        Comparison { library, counted, tally: Tally::default(), null: 0, random: Random::of(0, 0) }
    }

    /// Checks each table, and asks for the words of an entry.
    pub fn checks(&mut self, seed: u64, count: u64) {
        self.go_over(seed, count, |comparison, given| {
            comparison.call(given, Operation::Check, &checked(&given.problem));
            comparison.entry_words(given);
        });
    }

    /// Unifies pairs of nodes of each table.
    pub fn unifications(&mut self, seed: u64, count: u64) {
        self.go_over(seed, count, |comparison, given| {
            let random = &mut Random::of(!given.made.seed, given.made.index);
            for (a, b) in pairs(random, &given.problem) {
                let unified = Unified::of(&given.table, a, b);
                for lent in unification_lengths(&given.problem) {
                    comparison.call(given, Operation::Unify(Unification { a, b, lent }), &unified.with(lent));
                }
            }
        });
    }

    /// Lists each table with several numbers of words lent.
    pub fn listings(&mut self, seed: u64, count: u64) {
        self.go_over(seed, count, |comparison, given| {
            let random = &mut Random::of(!given.made.seed, given.made.index);
            let listed = Listed::of(&given.problem);
            for lent in listing_lengths(random, &listed) {
                comparison.call(given, Operation::List(lent), &listed.with(lent));
            }
        });
    }

    /// Goes over the empty table, and those generated tables that are whole words.
    fn go_over(&mut self, seed: u64, count: u64, ask: impl Fn(&mut Self, &Given)) {
        let empty = Made { seed, index: count, family: "empty", input: vec![] };
        for made in (0..count).map(|index| make(seed, index)).chain([empty]) {
            let Some(table) = made.words() else { continue };
            self.tally.table(&made);
            let problem = read(&table);
            ask(self, &Given { made, table, problem });
        }
    }

    /// A call, and where it has a length of 0 the same with NULL.
    fn call(&mut self, given: &Given, operation: Operation, expected: &Expected) {
        let none_lent = expected.lent.is_empty() && operation != Operation::Check;
        for place in self.places(given.table.is_empty(), none_lent) {
            self.tally.answer(&expected.answer);
            let difference = difference(self.library, place, &given.table, operation, expected);
            self.counted.add(&given.made, difference);
        }
    }

    fn entry_words(&mut self, given: &Given) {
        let expected = given.problem.as_ref().map_or(0, Problem::entry_words);
        for place in self.places(given.table.is_empty(), false) {
            self.tally.answer("the words of an entry");
            let difference = entry_words_difference(self.library, place, &given.table, expected);
            self.counted.add(&given.made, difference);
        }
    }

    /// Where the words of the next calls lie: at any of the four alignments, and NULL for each length of 0.
    fn places(&mut self, no_table: bool, none_lent: bool) -> Vec<Place> {
        let (table_behind, out_behind) = (self.random.one_in(2), self.random.one_in(2));
        let mut places = vec![];
        for null_table in [false, true] {
            for null_out in [false, true] {
                if (no_table || !null_table) && (none_lent || !null_out) {
                    self.null += usize::from(null_table || null_out);
                    places.push(Place { table_behind, out_behind, null_table, null_out });
                }
            }
        }
        places
    }
}
