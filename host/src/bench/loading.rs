//! The largest sheets, without calls.
//!
//! A run loads one sheet, so that a load is the difference between a run with
//! a sheet and one without. A fast load takes some hundredth of a run, so many
//! runs are timed, and the instructions are counted too, where the machine has
//! the tool.

use super::heaviest::{late_correction, many_states};
use super::script::with_length;
use super::Input;
use crate::desk::COLLECTION;
use crate::generate::{draw, Bounds, Draft, Goal, Profile};
use crate::limits::MAX_BOUND;
use crate::random::Random;
use crate::sheet::{RULE, UNBOUNDED};

/// How many random sheets are loaded.
const RANDOM: u64 = 3;

/// One load of each of the largest sheets.
pub fn largest(_calls: usize) -> Vec<Input> {
    sheets().iter().map(|sheet| load(sheet)).collect()
}

/// A load of the sheet with a long way.
pub fn longest(_calls: usize) -> Vec<Input> {
    vec![load(&long_way())]
}

/// One load of each of the largest sheets, and a collection: only then is the
/// lamp asked for. The reference works nothing out before.
pub fn largest_called(_calls: usize) -> Vec<Input> {
    sheets().iter().map(|sheet| called(load(sheet))).collect()
}

/// The same of the sheet with a long way.
pub fn longest_called(_calls: usize) -> Vec<Input> {
    vec![called(load(&long_way()))]
}

/// What is not counted is a run without a sheet.
fn load(sheet: &[u8]) -> Input {
    Input {
        base: Vec::new(),
        whole: with_length(sheet),
        count: 1,
    }
}

/// A collection at date 0 after a load.
fn called(mut input: Input) -> Input {
    input.whole.extend([COLLECTION, 0, 0, 0, 0]);
    input
}

/// Sheets of 518 bytes: random ones, and the heaviest.
pub fn sheets() -> Vec<Vec<u8>> {
    let mut sheets: Vec<_> = (0..RANDOM).map(random_sheet).collect();
    sheets.extend([many_states(), late_correction()]);
    sheets
}

/// A random sheet with as much as there can be of everything.
fn random_sheet(seed: u64) -> Vec<u8> {
    let profile = Profile {
        locations: (16, 16),
        clocks: 2,
        actions: (16, 16),
        bounds: Bounds {
            low: 0,
            high: MAX_BOUND,
        },
        splits: 2,
        density: 100,
        forward: 50,
        resets: 40,
        gaps: 30,
        goal: Goal::Last,
    };
    draw(&mut Random::new(seed), &profile).bytes()
}

/// A sheet whose accepting location is hundreds of actions away: in each of
/// the other locations the difference of the readings must first rise to the
/// largest bound, by one with each action.
pub fn long_way() -> Vec<u8> {
    let mut outgoing = vec![Vec::new(); 16];
    for step in 0..15 {
        outgoing[usize::from(station(step))] = counting(step);
    }
    outgoing[15] = (0..4).map(start_again).collect();
    let draft = Draft {
        locations: 16,
        clocks: 2,
        actions: 16,
        initial: station(0),
        accepting: 1 << 15,
        outgoing,
    };
    draft.bytes()
}

/// The location at a step of the way: from both ends by turns, so that
/// neither order of the locations is the order of the way.
fn station(step: u8) -> u8 {
    match step {
        15 => 15,
        _ if step.is_multiple_of(2) => step / 2,
        _ => 14 - step / 2,
    }
}

/// Actions 0 and 1 count and lead on; actions 2 and 3 lead back.
fn counting(step: u8) -> Vec<[u8; RULE]> {
    let here = station(step);
    let before = station(step.saturating_sub(1));
    vec![
        start_again(3),
        [2, before, 3, 0, UNBOUNDED, 0, UNBOUNDED],
        [1, station(step + 1), 3, 0, 0, MAX_BOUND, MAX_BOUND],
        [0, here, 1, 1, 1, 0, MAX_BOUND],
    ]
}

/// An action that leads back to where the way starts.
fn start_again(action: u8) -> [u8; RULE] {
    [action, station(0), 3, 0, UNBOUNDED, 0, UNBOUNDED]
}
