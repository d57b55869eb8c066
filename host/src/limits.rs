//! The limits of the box, each named once.

/// Most actions that can be pending.
pub const MAX_PENDING: usize = 16;
/// Largest finite bound of a guard.
pub const MAX_BOUND: u8 = 40;
/// Most actions in the schedule.
pub const MAX_SCHEDULED: usize = 32;
/// Most transitions of an automaton.
pub const MAX_TRANSITIONS: usize = 64;
/// Most offers that get a number.
pub const MAX_NUMBERED: u32 = 1_000_000;
/// Last date that a load, a call, a correction or a log may have.
pub const LAST_DATE: u32 = 1_000_000_000;
