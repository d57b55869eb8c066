//! What the commands that link the proved library share: its functions, logs and
//! sheets as text, the messages for what it refuses, and running a comparison.

pub mod comparison;
pub mod library;
pub mod logs;
pub mod sheets;
