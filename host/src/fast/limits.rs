//! The sizes of tables and rows of bits that follow from the limits.

use crate::limits::{MAX_BOUND, MAX_PENDING};

/// Most actions of a correction.
pub const BATCH: usize = MAX_PENDING + 1;
/// The cap: the least reading above every finite bound.
pub const CAP: u8 = MAX_BOUND + 1;
/// How many readings differ once they are capped.
pub const READINGS: usize = CAP as usize + 1;

/// A bit for each reading of clock 1.
pub type Row = u64;
/// The row of all readings.
pub const FULL: Row = Row::MAX >> (Row::BITS - READINGS as u32);
/// The row of the capped reading alone.
pub const CAP_BIT: Row = 1 << CAP;

/// The cost of a list that has no correction.
pub const NEVER: u16 = 60_000;
/// A position that does not occur.
pub const NOWHERE: u8 = 255;
