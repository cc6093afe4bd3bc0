//! The numbers of the document and of the protocol.

pub const MOST_SPELLS: usize = 1024;
pub const MOST_PAST: usize = 64;
pub const LAST_DAY: u16 = 4000;
pub const LARGEST_GRADE: u16 = 4;
/// The bits of 1000.0.
pub const LARGEST_READING: u32 = 0x447A_0000;

pub const LARGEST_NUMBER: u64 = 65_535;
pub const LONGEST_TEXT: usize = 65_536;

/// With its LF.
pub const LONGEST_LINE: usize = 65_536;
pub const LARGEST_ROOM: usize = 65_536;
/// Ten digits.
pub const LARGEST_LENGTH: u64 = 9_999_999_999;
