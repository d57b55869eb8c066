//! Sheets with two clocks on which two to five actions are scheduled at once.

use super::held::{fresh_date, one_exit, pick_held};
use super::script::Script;
use super::Input;
use crate::monitor::Answer;
use crate::random::Random;

/// How many sheets share the offers.
const SHEETS: usize = 8;
/// Different lists of a sheet before all calls come again.
const LISTS: u32 = 20;
/// Ticks that a correction takes on average, at least.
const WAITED: u32 = 3;

/// Inputs over several sheets, the first random ones that can go on so.
pub fn two_clocks(offers: usize) -> Vec<Input> {
    let each = offers.div_ceil(SHEETS);
    (0..)
        .filter_map(|seed| input(seed, each))
        .take(SHEETS)
        .collect()
}

/// Lists for one random sheet, again and again; `None` if one fails.
fn input(seed: u64, offers: usize) -> Option<Input> {
    let mut random = Random::new(seed);
    let draft = one_exit(&mut random, 2);
    let mut script = Script::new(&draft.bytes());
    let start = fresh_date(&script);
    let (mut date, mut waited) = (start, 0);
    for _ in 0..LISTS {
        waited += list(&mut script, &mut random, date)?;
        date = script.monitor().date() + random.between(0, 3);
    }
    // The lists start in the last location with capped readings, as at first.
    let period = fresh_date(&script) - start;
    // For each offer there is a collection.
    (waited >= WAITED * LISTS).then(|| script.cycling(period, 2 * offers).offers())
}

/// Has a list scheduled and collects it. Gives the ticks that the correction
/// takes.
fn list(script: &mut Script, random: &mut Random, date: u32) -> Option<u32> {
    for _ in 0..random.between(1, 4) {
        let action = pick_held(script, random, date)?;
        script.offer(action, date);
    }
    let exit = script.monitor().automaton().actions - 1;
    let Answer::Scheduled { count, last } = script.offer(exit, date) else {
        return None;
    };
    for _ in 0..count {
        script.collect(last);
    }
    Some(last - date)
}
