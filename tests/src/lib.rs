//! A second program for document 01, written from the papers alone, to hold the proved library against.
//! Nothing here is shared with the library: neither code, nor definitions, nor tables of numbers.
//!
//! - [`table`]: reading a table, refusals 1 to 7
//! - [`terms`]: terms and substitutions, document 001
//! - [`unification`]: Martelli and Montanari's algorithm, document 001
//! - [`closure`]: clash and occurs, as document 01 defines them
//! - [`words`]: the binding words of a unifier, document 01
//! - [`algorithms`]: Algorithms 1 to 5 of document 000
//! - [`listing`]: the complete listing, from Algorithm 1 or choice by choice
//! - [`operations`]: document 01's operations with lent words, and what its program `list` prints
//! - [`assignments`]: assignments, equal sides and instances, for demand 3
//! - [`generator`]: tables to compare on, of [`families`] of problems, right or with some [`damage`]
//! - [`forced`]: the families of problems with pairs that every choice has
//! - [`random`], [`drawing`]: how they are drawn
//! - [`pairs`]: which of their nodes are unified
//! - [`lengths`]: how many words are lent to listings of them
//! - [`tally`]: what generated tables were
//! - [`lines`]: the lines of this project's program `examples`
//! - [`comparison`], [`arguments`]: a program held against this one

pub mod algorithms;
pub mod arguments;
pub mod assignments;
pub mod closure;
pub mod comparison;
pub mod damage;
pub mod drawing;
pub mod families;
pub mod forced;
pub mod generator;
pub mod lengths;
pub mod lines;
pub mod listing;
pub mod operations;
pub mod pairs;
pub mod random;
pub mod table;
pub mod tally;
pub mod terms;
pub mod unification;
pub mod words;
