//! The box once more, written for speed: sets of bits decide what becomes of a
//! list of actions, and dates are worked out only where there is a correction,
//! from costs right after resets. It is there to be measured against.

mod cost;
mod limits;
mod liveness;
mod monitor;
mod reach;
mod sheet;

pub use monitor::Monitor;
