//! The limits of a table, and how much room is always enough.

pub const HEADER_WORDS: usize = 12;
pub const NODE_WORDS: usize = 4;

pub const MAX_NODES: usize = 256;
pub const MAX_ARGUMENTS: usize = 512;
/// Of one side.
pub const MAX_TERMS: usize = 8;
/// Of one side.
pub const MAX_LABELS: usize = 4;
/// The most arguments of one application.
pub const MAX_COUNT: u32 = 8;
pub const MAX_VARIABLE: u32 = 63;
pub const MAX_NAME: u32 = 65535;
pub const MAX_LABEL: u32 = 65535;

/// The most words of an accepted table.
pub const MAX_TABLE_WORDS: usize = 1572;
/// The most binding words: always enough for [`unify`](crate::unify).
pub const MAX_BINDING_WORDS: usize = 64;
/// The most words of one entry of a listing.
pub const MAX_ENTRY_WORDS: usize = 80;

/// The most stack that a call takes: measured, with a margin, and not proved.
pub const STACK_BYTES: usize = 131072;
