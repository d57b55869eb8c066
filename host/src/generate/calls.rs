//! Random calls for an automaton. A monitor runs along, so that actions can
//! be chosen by the answer they would get.

use super::draft::EARLIER_MOST;
use super::kinds::CAPPED;
use super::with_length;
use crate::desk::COLLECTION;
use crate::limits::LAST_DATE;
use crate::monitor::{Answer, Monitor};
use crate::random::Random;
use crate::sheet;

/// How the dates of calls go on; shares are cases in a hundred.
#[derive(Clone, Copy, Debug)]
pub struct Pace {
    /// Share of the calls that keep the date.
    pub still: u32,
    /// Share of the calls that jump far.
    pub jumps: u32,
    /// Most ticks of a step that is no jump.
    pub step: u32,
    /// Most ticks of a jump that aims at no reading.
    pub jump: u32,
}

/// How calls are chosen.
#[derive(Clone, Copy, Debug)]
pub struct Plan {
    pub calls: u32,
    /// Share of the calls that are collections.
    pub collections: u32,
    /// Share of the calls that are likely refused for their action or date.
    pub stray: u32,
    /// Share of the offers whose action is chosen by the answer it would get.
    pub steered: u32,
    /// The answers to look for.
    pub wanted: fn(&Answer) -> bool,
    pub pace: Pace,
}

impl Plan {
    /// The same plan for so many calls.
    pub fn times(self, calls: u32) -> Self {
        Plan { calls, ..self }
    }

    /// The same plan with so many stray calls in a hundred.
    pub fn straying(self, stray: u32) -> Self {
        Plan { stray, ..self }
    }

    /// The same plan with so many collections in a hundred calls.
    pub fn collecting(self, collections: u32) -> Self {
        Plan {
            collections,
            ..self
        }
    }

    /// The same plan with so many in a hundred offers steered to some answers.
    pub fn steering(self, steered: u32, wanted: fn(&Answer) -> bool) -> Self {
        Plan {
            steered,
            wanted,
            ..self
        }
    }

    /// The same plan with another pace.
    pub fn pacing(self, pace: Pace) -> Self {
        Plan { pace, ..self }
    }
}

/// An input that grows call by call.
pub struct Script {
    input: Vec<u8>,
    monitor: Monitor,
}

/// Adds the bytes of one call to an input.
pub fn push_call(input: &mut Vec<u8>, first: u8, date: u32) {
    input.push(first);
    input.extend_from_slice(&date.to_le_bytes());
}

/// Adds calls at random to an input whose sheet need not load.
pub fn push_random_calls(random: &mut Random, input: &mut Vec<u8>, count: u32) {
    let mut date = 0;
    for _ in 0..count {
        // At times so many ticks that readings come to the largest bounds.
        let most = random.pick(&[4, 4, 4, CAPPED + 5]);
        date += random.between(0, most);
        let first = if random.chance(30) {
            COLLECTION
        } else {
            random.byte(0, 4)
        };
        push_call(input, first, date);
    }
}

impl Script {
    /// Starts with a sheet that loads.
    pub fn new(bytes: &[u8]) -> Self {
        let automaton = sheet::read(bytes).expect("the sheet loads");
        Script {
            input: with_length(bytes),
            monitor: Monitor::new(automaton, 0),
        }
    }

    /// The input so far.
    pub fn finish(self) -> Vec<u8> {
        self.input
    }

    pub fn monitor(&self) -> &Monitor {
        &self.monitor
    }

    /// Adds an offer.
    pub fn offer(&mut self, action: u8, date: u32) -> Answer {
        push_call(&mut self.input, action, date);
        self.monitor.offer(action, date)
    }

    /// Adds a collection.
    pub fn collect(&mut self, date: u32) -> Answer {
        push_call(&mut self.input, COLLECTION, date);
        self.monitor.collect(date)
    }

    /// Adds calls by a plan.
    pub fn follow(&mut self, random: &mut Random, plan: Plan) {
        for _ in 0..plan.calls {
            if random.chance(plan.stray) {
                self.stray(random);
                continue;
            }
            let date = self.next_date(random, &plan.pace);
            if random.chance(plan.collections) {
                self.collect(date);
            } else {
                let action = self.choose(random, &plan, date);
                self.offer(action, date);
            }
        }
    }

    /// At times, plays all that is scheduled, which shows every date.
    pub fn drain(&mut self, random: &mut Random) {
        if random.chance(30) {
            return;
        }
        let far = self.monitor.date() + 1000;
        let mut answer = self.collect(far.min(LAST_DATE));
        while matches!(answer, Answer::Played(_)) {
            let date = self.monitor.date();
            answer = self.collect(date);
        }
    }

    /// Plays all that is scheduled, each action when it is due or a little later.
    pub fn play_all(&mut self, random: &mut Random) {
        while let Some(oldest) = self.monitor.schedule().first() {
            let due = oldest.date.max(self.monitor.date());
            let late = random.pick(&[0, 0, 0, 0, 1, 3]);
            self.collect((due + late).min(LAST_DATE));
        }
    }

    /// Adds a call whose action or date, or both, may be out of range.
    fn stray(&mut self, random: &mut Random) {
        let now = self.monitor.date();
        let before = now.saturating_sub(1);
        let beyond = random.pick(&[LAST_DATE + 1, u32::MAX, 1 << 31]);
        let date = random.pick(&[now, now, before, before, 0, beyond]);
        let edge = self.monitor.automaton().actions;
        match random.pick(&[0, edge - 1, edge, edge, 16, 254, COLLECTION, COLLECTION]) {
            COLLECTION => self.collect(date),
            action => self.offer(action, date),
        };
    }

    /// A date at or after the monitor's, at most the last date.
    pub fn next_date(&self, random: &mut Random, pace: &Pace) -> u32 {
        let ticks = if random.chance(pace.still) {
            0
        } else if random.chance(pace.jumps) {
            let any = random.between(1, pace.jump);
            let aimed = self.to_large_reading(random).unwrap_or(any);
            random.pick(&[any, aimed])
        } else {
            random.between(1, pace.step)
        };
        (self.monitor.date() + ticks).min(LAST_DATE)
    }

    /// Ticks after which the clock that was reset last reads about as much as a
    /// large bound, or just more than all; `None` if that has passed.
    fn to_large_reading(&self, random: &mut Random) -> Option<u32> {
        let reached = self.monitor.reached();
        let wanted = random.between(EARLIER_MOST.into(), CAPPED + 1);
        let least = reached.configuration.valuation.into_iter().min()?;
        let date = reached.date + wanted.checked_sub(least)?;
        date.checked_sub(self.monitor.date())
    }

    /// An action for an offer; if steered, the first of some that would get a
    /// wanted answer.
    pub fn choose(&self, random: &mut Random, plan: &Plan, date: u32) -> u8 {
        let count = self.monitor.automaton().actions;
        let mut actions: Vec<u8> = (0..count).collect();
        random.shuffle(&mut actions);
        if !random.chance(plan.steered) {
            return actions[0];
        }
        let gets_wanted = |action: &&u8| {
            let answer = self.monitor.clone().offer(**action, date);
            (plan.wanted)(&answer)
        };
        let found = actions.iter().take(8).find(gets_wanted);
        *found.unwrap_or(&actions[0])
    }
}
