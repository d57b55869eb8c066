//! Calls that leave the lamp as it is stored, and beside them calls that set it
//! anew: on the sheet with the most states, 16 actions are held but where the
//! box is lit.

use super::heaviest::{fill, many_states, HELD};
use super::script::Script;
use super::Input;
use crate::desk::COLLECTION;

/// An action that the sheet does not have.
const NO_ACTION: u8 = 16;
/// Where the accepting locations stand in a sheet.
const ACCEPTING: std::ops::Range<usize> = 4..6;

/// Repetitions of one call with 16 actions held.
fn with_held(first: u8, calls: usize) -> Vec<Input> {
    let mut script = Script::new(&many_states());
    let date = fill(&mut script);
    vec![script.repeating(first, date, calls)]
}

/// Offers that are refused for their action.
pub fn refused(calls: usize) -> Vec<Input> {
    with_held(NO_ACTION, calls)
}

/// Collections that leave the first possible date as it was.
pub fn collected(calls: usize) -> Vec<Input> {
    with_held(COLLECTION, calls)
}

/// Collections each a tick later than the one before.
pub fn collected_later(calls: usize) -> Vec<Input> {
    let mut script = Script::new(&many_states());
    let date = fill(&mut script);
    vec![script.later(date, calls)]
}

/// Sixteen actions held one after the other.
pub fn held(_calls: usize) -> Vec<Input> {
    let mut script = Script::new(&many_states());
    fill(&mut script);
    vec![script.finish()]
}

/// Repetitions of one call where nothing is accepting, so that the lamp is lit.
fn with_lit(first: u8, calls: usize) -> Vec<Input> {
    let mut sheet = many_states();
    sheet[ACCEPTING].fill(0);
    vec![Script::new(&sheet).repeating(first, 0, calls)]
}

/// Offers to a lit box.
pub fn offered_lit(calls: usize) -> Vec<Input> {
    with_lit(HELD, calls)
}

/// Collections from a lit box.
pub fn collected_lit(calls: usize) -> Vec<Input> {
    with_lit(COLLECTION, calls)
}
