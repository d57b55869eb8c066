//! Sheets whose actions are held until 17 are scheduled at once.

use super::script::Script;
use super::Input;
use crate::decide::Decision;
use crate::generate::{draw, Bounds, Draft, Goal, Profile};
use crate::limits::{MAX_BOUND, MAX_PENDING};
use crate::monitor::Answer;
use crate::random::Random;
use crate::refusal::Refusal;
use crate::sets::CAP;

/// How many sheets share the calls.
const SHEETS: usize = 4;
/// Different batches of a sheet before all calls come again.
const BATCHES: u32 = 6;
/// Ticks that a correction takes on average, at least.
const WAITED: u32 = 6;

/// Inputs over several sheets with one clock.
pub fn one_clock(calls: usize) -> Vec<Input> {
    inputs(1, calls)
}

/// Inputs over several sheets with two clocks.
pub fn two_clocks(calls: usize) -> Vec<Input> {
    inputs(2, calls)
}

/// The first random sheets that can go on so, with calls.
fn inputs(clocks: u8, calls: usize) -> Vec<Input> {
    let each = calls.div_ceil(SHEETS);
    (0..)
        .filter_map(|seed| input(clocks, seed, each))
        .take(SHEETS)
        .collect()
}

/// Batches for one random sheet, again and again; `None` if one fails.
fn input(clocks: u8, seed: u64, calls: usize) -> Option<Input> {
    let mut random = Random::new(seed * 2 + u64::from(clocks));
    let draft = one_exit(&mut random, clocks);
    let mut script = Script::new(&draft.bytes());
    let start = fresh_date(&script);
    let mut waited = 0;
    for _ in 0..BATCHES {
        waited += batch(&mut script, &mut random)?;
    }
    // A batch starts in the last location with capped readings, as the first did.
    let period = fresh_date(&script) - start;
    (waited >= WAITED * BATCHES).then(|| script.cycling(period, calls))
}

/// A date at which all readings are capped.
pub fn fresh_date(script: &Script) -> u32 {
    let monitor = script.monitor();
    monitor.date().max(monitor.reached().date) + CAP as u32
}

/// A random automaton that starts in the last location. This is the only
/// accepting one, and only the last action leads to it.
pub fn one_exit(random: &mut Random, clocks: u8) -> Draft {
    let (low, high) = random.pick(&[(1, 5), (1, 14), (0, MAX_BOUND)]);
    let profile = Profile {
        locations: (4, 8),
        clocks,
        actions: (3, 5),
        bounds: Bounds { low, high },
        splits: random.between(1, 2),
        density: 100,
        forward: random.between(10, 60),
        resets: random.between(30, 70),
        gaps: random.between(20, 50),
        goal: Goal::Last,
    };
    let mut draft = draw(random, &profile);
    let last = draft.locations - 1;
    draft.initial = last;
    for rule in draft.outgoing.iter_mut().flatten() {
        if rule[0] == draft.actions - 1 {
            rule[1] = last;
        } else if rule[1] == last {
            rule[1] = random.byte(0, last - 1);
        }
    }
    draft
}

/// Fills the pending list, leaves it full for a while, and has it scheduled.
/// Gives the ticks that the correction takes.
fn batch(script: &mut Script, random: &mut Random) -> Option<u32> {
    let exit = script.monitor().automaton().actions - 1;
    let mut date = fresh_date(script);
    for _ in 0..MAX_PENDING {
        date += random.pick(&[0, 0, 0, 1, 2]);
        let action = pick_held(script, random, date)?;
        script.offer(action, date);
    }
    for _ in 0..=MAX_PENDING {
        script.collect(date);
        date += random.pick(&[0, 0, 0, 1]);
        let answer = script.offer(random.byte(0, exit - 1), date);
        if !matches!(answer, Answer::Refused(Refusal::S4) | Answer::Dropped) {
            return None;
        }
    }
    match script.offer(exit, date) {
        Answer::Scheduled { count, last } if count > MAX_PENDING => Some(last - date),
        _ => None,
    }
}

/// An action that would be held.
pub fn pick_held(script: &Script, random: &mut Random, date: u32) -> Option<u8> {
    let mut actions: Vec<u8> = (0..script.monitor().automaton().actions).collect();
    random.shuffle(&mut actions);
    let held = |action: &u8| script.outlook(*action, date) == Decision::Hold;
    actions.into_iter().find(held)
}
