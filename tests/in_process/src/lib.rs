//! The library, called as C callers call it, held against the second program on generated tables.
//! The second program shares nothing with the library, so this is a project of its own, which knows both.
//!
//! - [`library`]: the library's operations by pointers and lengths, and the linked library
//! - [`guarded`]: words that a call is handed, between guard words
//! - [`expected`]: what the second program answers
//! - [`asked`]: which nodes of a table are unified, and with how many words lent
//! - [`call`]: one call, and how it differs from what is expected
//! - [`comparison`]: all calls on generated tables

pub mod asked;
pub mod call;
pub mod comparison;
pub mod expected;
pub mod guarded;
pub mod library;
