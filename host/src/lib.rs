//! The second program of the command retimer: an automaton reader, a monitor
//! that retimes actions, another one written for speed, the desk program's
//! lines, and random desk inputs; the conversion of logs, with random logs; and
//! the product of two sheets, with random pairs.

pub mod bench;
pub mod bounds;
pub mod compare;
pub mod course;
pub mod decide;
pub mod desk;
pub mod fast;
pub mod filter;
pub mod generate;
pub mod lent;
pub mod limits;
pub mod lines;
pub mod loading;
pub mod log;
pub mod monitor;
pub mod pieces;
pub mod product;
pub mod question;
pub mod random;
pub mod refusal;
pub mod runs;
pub mod seeds;
pub mod sets;
pub mod sheet;
pub mod tally;
pub mod used_up;
