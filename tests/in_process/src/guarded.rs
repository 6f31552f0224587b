//! Words that a call is handed, between guard words that it must leave as they are.

use std::ptr;

/// How many guard words there are on each side, at least.
const GUARD: usize = 32;

pub struct Guarded {
    words: Vec<u32>,
    start: usize,
    length: usize,
}

impl Guarded {
    /// Words that begin at a multiple of 8 bytes, or 4 bytes behind one.
    pub fn new(content: &[u32], behind: bool) -> Guarded {
        let length = content.len();
        let mut words: Vec<u32> = (0..2 * GUARD + length + 2).map(guard_word).collect();
        let start = GUARD + usize::from(words[GUARD..].as_ptr().align_offset(8) % 2 == 1) + usize::from(behind);
        words[start..start + length].copy_from_slice(content);
        Guarded { words, start, length }
    }

    /// The pointer that is handed to a call.
    pub fn pointer(&mut self) -> *mut u32 {
        self.words.as_mut_ptr().wrapping_add(self.start)
    }

    /// The pointer, or NULL where it stands for no word.
    pub fn pointer_or_null(&mut self, null: bool) -> *mut u32 {
        if null && self.length == 0 {
            ptr::null_mut()
        } else {
            self.pointer()
        }
    }

    /// The words without the guard words.
    pub fn content(&self) -> &[u32] {
        &self.words[self.start..self.start + self.length]
    }

    /// The first word that is not as expected, by its place from the first word of the content.
    pub fn difference(&self, name: &str, expected: &[u32]) -> Option<String> {
        assert_eq!(expected.len(), self.length);
        let (start, end) = (self.start, self.start + self.length);
        let guards =
            |range: std::ops::Range<usize>| range.clone().map(guard_word).eq(self.words[range].iter().copied());
        if guards(0..start) && self.content() == expected && guards(end..self.words.len()) {
            return None;
        }
        let at = |place: usize| if (start..end).contains(&place) { expected[place - start] } else { guard_word(place) };
        let place = (0..self.words.len()).find(|&place| self.words[place] != at(place)).expect("a difference");
        let number = place as i64 - start as i64;
        let kind = if (start..end).contains(&place) { "word" } else { "guard word" };
        let (expected, found) = (at(place), self.words[place]);
        Some(format!("{name}, {kind} {number}, expected: {expected}\n{name}, {kind} {number}, found: {found}"))
    }
}

/// A word that is no node and no lent word, another one at each place.
fn guard_word(place: usize) -> u32 {
    0xa5a5_0000 + place as u32
}
