//! Sheets that the proved library joins: the joined sheet's text, and the messages
//! for those that it refuses.

pub mod refused;
pub mod text;
