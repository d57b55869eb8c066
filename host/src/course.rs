//! The course sheets, as bytes.

/// Two locations, both accepting; command 1 keeps five ticks from itself.
pub const A: &[u8] = &[
    2, 1, 2, 0, 3, 0, //
    14, 0, 14, 0, 28, 0, 14, 0, //
    0, 0, 0, 0, 255, 0, 255, //
    1, 1, 1, 0, 255, 0, 255, //
    0, 1, 0, 0, 255, 0, 255, //
    1, 1, 1, 5, 255, 0, 255,
];

/// Command 0 with reset, then command 1 at readings 10 to 15.
pub const B: &[u8] = &[
    3, 1, 2, 0, 4, 0, //
    18, 0, 7, 0, 25, 0, 7, 0, 32, 0, 0, 0, //
    0, 1, 1, 0, 255, 0, 255, //
    1, 2, 0, 10, 15, 0, 255,
];

/// Command 0 up to 8, then command 1 up to 20, no reset.
pub const C: &[u8] = &[
    3, 1, 2, 0, 4, 0, //
    18, 0, 7, 0, 25, 0, 7, 0, 32, 0, 0, 0, //
    0, 1, 0, 0, 8, 0, 255, //
    1, 2, 0, 0, 20, 0, 255,
];

/// Command 0 always, then command 1 from 10 on, no reset.
pub const D: &[u8] = &[
    3, 1, 2, 0, 4, 0, //
    18, 0, 7, 0, 25, 0, 7, 0, 32, 0, 0, 0, //
    0, 1, 0, 0, 255, 0, 255, //
    1, 2, 0, 10, 255, 0, 255,
];

/// Command 0 any number of times, then command 1, always.
pub const E: &[u8] = &[
    2, 1, 2, 0, 2, 0, //
    14, 0, 14, 0, 28, 0, 0, 0, //
    0, 0, 0, 0, 255, 0, 255, //
    1, 1, 0, 0, 255, 0, 255,
];
