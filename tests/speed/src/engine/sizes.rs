//! docs/HOST.md: each size by a name of its own.

pub const GUESTS: usize = 4;
pub const HOST_PAGES: usize = 4;
pub const PAGES: usize = 64;
pub const VIRTUALS: usize = 64;
pub const PHYSICALS: usize = 16;
pub const SETS: usize = 8;
pub const WAYS: usize = 2;
pub const SLOTS: usize = 8;

/// The stealth address, and the first one that is the host's.
pub const STEALTH: u8 = 7;
pub const FIRST_HOST_VA: usize = 48;

/// Kinds of records, and calls.
pub const KINDS: usize = 16;
pub const CALLS: usize = 6;

/// The bytes of a call: its number and its two arguments.
pub const CALL_BYTES: usize = 3;

/// The most records of a journal.
pub const RECORD_LIMIT: usize = 4096;
