//! Logs that the proved library converts: their text, and the messages for those
//! that it refuses.

pub mod refused;
pub mod text;
