//! Inputs that begin with a loading date: those of the random kinds, with the
//! dates of their calls moved there.

use super::calls::push_call;
use super::kinds::CAPPED;
use crate::desk::{self, CALL, COLLECTION};
use crate::limits::{LAST_DATE, MAX_PENDING};
use crate::random::Random;

/// Dates of calls from here on are there for the last date, and are not moved.
const LATE: u32 = LAST_DATE / 2;

/// Ticks that no correction takes more than.
const LONGEST: u32 = CAPPED * (MAX_PENDING as u32 + 1);

/// Puts a random loading date before an input and moves its calls there.
pub fn at_a_date(random: &mut Random, plain: &[u8]) -> Vec<u8> {
    let loaded = loading_date(random);
    let mut input = loaded.to_le_bytes().to_vec();
    match desk::split(plain) {
        None => input.extend_from_slice(plain),
        Some((_, calls)) => {
            input.extend_from_slice(&plain[..plain.len() - calls.len()]);
            first_calls(random, &mut input, loaded);
            move_calls(random, &mut input, loaded, calls);
        }
    }
    // At times even the date is not whole.
    if random.chance(1) {
        input.truncate(random.below(8));
    }
    input
}

/// Date 0, a little later, anywhere, near the last date, that date, and above it.
fn loading_date(random: &mut Random) -> u32 {
    match random.below(100) {
        0..8 => 0,
        8..24 => random.between(1, 60),
        24..60 => random.between(1, LAST_DATE),
        60..80 => {
            let before = random.pick(&[4, CAPPED, 200, LONGEST]);
            LAST_DATE - random.between(1, before)
        }
        80..86 => LAST_DATE,
        86..91 => LAST_DATE + 1,
        91..96 => random.between(LAST_DATE + 2, u32::MAX),
        _ => u32::MAX,
    }
}

/// At times, some calls around the loading date. Most are refused and none plays,
/// so that they show the fresh box.
fn first_calls(random: &mut Random, input: &mut Vec<u8>, loaded: u32) {
    if !random.chance(30) {
        return;
    }
    let before = loaded.saturating_sub(1);
    for _ in 0..random.between(1, 3) {
        let any = random.between(0, before);
        let first = random.pick(&[COLLECTION, COLLECTION, 0, 1]);
        match random.below(6) {
            0 | 1 => push_call(input, first, before),
            2 => push_call(input, first, any),
            3 => push_call(input, first, LAST_DATE + 1),
            // Nothing is due there yet, so that the box stays as it was.
            _ => push_call(input, COLLECTION, loaded),
        }
    }
}

/// Adds calls, moved to the loading date, at times a little less or not at all, so
/// that the first ones lie before it. No date overflows.
fn move_calls(random: &mut Random, input: &mut Vec<u8>, loaded: u32, calls: &[u8]) {
    let less = random.between(1, 10);
    let ticks = match random.below(20) {
        0 => 0,
        1 | 2 => loaded.saturating_sub(less),
        _ => loaded,
    };
    let calls = calls.chunks_exact(CALL);
    let tail = calls.remainder();
    for call in calls {
        let date = desk::date_of(call);
        let moved = date.saturating_add(ticks);
        push_call(input, call[0], if date < LATE { moved } else { date });
    }
    input.extend_from_slice(tail);
}
