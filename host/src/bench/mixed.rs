//! Random sheets in the generator's style with calls of every sort.

use super::script::Script;
use super::Input;
use crate::generate::{draw, Bounds, Goal, Profile};
use crate::limits::MAX_BOUND;
use crate::monitor::Answer;
use crate::random::Random;

/// How many sheets share the calls.
const SHEETS: usize = 8;
/// Calls after which a sheet is judged for the first time.
const TRIAL: usize = 300;
/// Scheduled actions above which the oldest is collected.
const CROWDED: usize = 24;

/// How often some answers came.
#[derive(Clone, Copy, Default)]
struct Counts {
    scheduled: usize,
    held: usize,
    dropped: usize,
}

impl Counts {
    fn add(&mut self, answer: Answer) {
        match answer {
            Answer::Scheduled { .. } => self.scheduled += 1,
            Answer::Held(_) => self.held += 1,
            Answer::Dropped => self.dropped += 1,
            _ => {}
        }
    }
}

/// Inputs over several sheets with one clock.
pub fn one_clock(calls: usize) -> Vec<Input> {
    inputs(1, calls)
}

/// Inputs over several sheets with two clocks.
pub fn two_clocks(calls: usize) -> Vec<Input> {
    inputs(2, calls)
}

/// The first random sheets that stay lively, with calls.
fn inputs(clocks: u8, calls: usize) -> Vec<Input> {
    let each = calls.div_ceil(SHEETS);
    (0..)
        .filter_map(|seed| input(clocks, seed, each))
        .take(SHEETS)
        .collect()
}

/// The calls for one random sheet; `None` if most of them do nothing.
fn input(clocks: u8, seed: u64, calls: usize) -> Option<Input> {
    let mut random = Random::new(seed * 2 + u64::from(clocks));
    let profile = profile(&mut random, clocks);
    let draft = draw(&mut random, &profile);
    let mut script = Script::new(&draft.bytes());
    let mut counts = Counts::default();
    for index in 0..calls {
        if index == TRIAL && !lively(&script, &counts, index) {
            return None;
        }
        if let Some(answer) = add_call(&mut script, &mut random) {
            counts.add(answer);
        }
    }
    lively(&script, &counts, calls).then(|| script.finish())
}

/// Whether offers are scheduled, held and at times dropped, and still can be.
fn lively(script: &Script, counts: &Counts, calls: usize) -> bool {
    counts.scheduled * 10 >= calls
        && counts.held * 10 >= calls
        && counts.dropped * 20 >= calls
        && counts.dropped * 3 <= calls
        && !script.monitor().lamp()
}

fn profile(random: &mut Random, clocks: u8) -> Profile {
    let bounds = [(1, 5), (1, 14), (MAX_BOUND - 5, MAX_BOUND), (0, MAX_BOUND)];
    let (low, high) = random.pick(&bounds);
    Profile {
        locations: (2, random.pick(&[4, 8, 16])),
        clocks,
        actions: (2, random.pick(&[3, 6, 16])),
        bounds: Bounds { low, high },
        splits: random.between(1, 3),
        density: random.between(20, 90),
        forward: random.between(30, 90),
        resets: random.between(20, 60),
        gaps: random.between(10, 60),
        goal: random.pick(&[Goal::Last, Goal::Percent(10), Goal::Percent(30)]),
    }
}

/// Adds a random call and gives the answer to an offer.
fn add_call(script: &mut Script, random: &mut Random) -> Option<Answer> {
    let now = script.monitor().date();
    if random.chance(3) {
        // A date that has passed.
        script.collect(now.saturating_sub(1));
        return None;
    }
    let schedule = script.monitor().schedule();
    let crowded = schedule.len() > CROWDED;
    let due = schedule.first().map_or(now, |oldest| oldest.date.max(now));
    let date = if crowded { due } else { now + ticks(random) };
    let date = if script.stays_dark(date) { date } else { now };
    if crowded || random.chance(25) {
        script.collect(date);
        return None;
    }
    match choose(script, random, date) {
        Some(action) => Some(script.offer(action, date)),
        None => {
            script.collect(now);
            None
        }
    }
}

/// How many ticks pass until the next call.
fn ticks(random: &mut Random) -> u32 {
    if random.chance(50) {
        0
    } else if random.chance(10) {
        random.between(6, u32::from(MAX_BOUND) + 10)
    } else {
        random.between(1, 5)
    }
}

/// An action that leaves the lamp dark, mostly one that is not dropped.
fn choose(script: &Script, random: &mut Random, date: u32) -> Option<u8> {
    let mut actions: Vec<u8> = (0..script.monitor().automaton().actions).collect();
    random.shuffle(&mut actions);
    let any = random.chance(25);
    let good = |action: &u8| {
        let mut trial = script.monitor().clone();
        let answer = trial.offer(*action, date);
        (any || answer != Answer::Dropped) && !trial.lamp()
    };
    actions.into_iter().take(6).find(good)
}
