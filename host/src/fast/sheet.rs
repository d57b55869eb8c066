//! The automaton with all transitions in one table, and the waits after which
//! a transition applies.

use super::limits::{Row, CAP, FULL, READINGS};
use crate::limits::MAX_TRANSITIONS;
use crate::sheet::{Automaton, Transition, MAX_CLOCKS, MAX_LOCATIONS, UNBOUNDED};

/// The readings of both clocks, capped. With one clock the second is always
/// the cap.
pub type Readings = [u8; MAX_CLOCKS];

/// A location with readings.
#[derive(Clone, Copy, Debug, PartialEq, Eq)]
pub struct Configuration {
    pub location: u8,
    pub readings: Readings,
}

/// A transition.
#[derive(Clone, Copy, Debug)]
pub struct Rule {
    pub action: u8,
    pub target: u8,
    /// Bit 0 stands for clock 1, bit 1 for clock 2.
    pub resets: u8,
    low: [u8; MAX_CLOCKS],
    /// No upper bound is 255, which is above every reading.
    high: [u8; MAX_CLOCKS],
}

/// The automaton.
#[derive(Clone, Debug)]
pub struct Sheet {
    pub locations: u8,
    pub clocks: u8,
    pub actions: u8,
    pub initial: u8,
    pub accepting: u16,
    /// Where the rules of each location start; they end where the next start.
    starts: [u8; MAX_LOCATIONS + 1],
    rules: [Rule; MAX_TRANSITIONS],
}

/// Whether a set of locations has one.
#[inline]
pub fn in_set(set: u16, location: u8) -> bool {
    set >> location & 1 == 1
}

/// The locations of a set.
#[inline]
pub fn each(mut set: u16) -> impl Iterator<Item = u8> {
    std::iter::from_fn(move || {
        let location = (set != 0).then_some(set.trailing_zeros() as u8);
        set &= set.wrapping_sub(1);
        location
    })
}

/// A reading some ticks later.
#[inline]
pub fn later(reading: u8, ticks: u8) -> u8 {
    (reading + ticks).min(CAP)
}

/// Both readings some ticks later.
#[inline]
pub fn waited(readings: Readings, ticks: u8) -> Readings {
    readings.map(|reading| later(reading, ticks))
}

/// The wait after which nothing changes any more.
#[inline]
fn saturation(readings: Readings) -> u8 {
    CAP - readings[0].min(readings[1])
}

/// One more than the last wait, at most `last`, after which a reading is at
/// most `high`; 0 if it is above already.
#[inline]
fn end(high: u8, reading: u8, last: u8) -> u8 {
    if high < reading {
        0
    } else {
        (high - reading).min(last) + 1
    }
}

impl Rule {
    const NONE: Rule = Rule {
        action: 0,
        target: 0,
        resets: 0,
        low: [0; MAX_CLOCKS],
        high: [0; MAX_CLOCKS],
    };

    fn new(transition: &Transition) -> Self {
        let [first, second] = transition.resets;
        Rule {
            action: transition.action,
            target: transition.target,
            resets: u8::from(first) + 2 * u8::from(second),
            low: transition.guards.map(|guard| guard.low),
            high: transition.guards.map(|it| it.high.unwrap_or(UNBOUNDED)),
        }
    }

    /// The first wait after which no reading is below its low.
    #[inline]
    pub fn first_wait(&self, readings: Readings) -> u8 {
        let [x, y] = readings;
        let [low_1, low_2] = self.low;
        low_1.saturating_sub(x).max(low_2.saturating_sub(y))
    }

    /// One more than the last wait, up to saturation, after which no reading is
    /// above its high.
    #[inline]
    pub fn end_wait(&self, readings: Readings) -> u8 {
        let last = saturation(readings);
        let [x, y] = readings;
        let [high_1, high_2] = self.high;
        end(high_1, x, last).min(end(high_2, y, last))
    }

    /// Whether the rule applies now.
    #[inline]
    fn applies(&self, readings: Readings) -> bool {
        let within = |clock: usize| {
            self.low[clock] <= readings[clock] && readings[clock] <= self.high[clock]
        };
        within(0) && within(1)
    }

    /// The readings after the resets.
    #[inline]
    pub fn reset(&self, readings: Readings) -> Readings {
        let [x, y] = readings;
        [
            if self.resets & 1 == 1 { 0 } else { x },
            if self.resets & 2 == 2 { 0 } else { y },
        ]
    }

    /// Where playing the rule leads.
    #[inline]
    pub fn play(&self, readings: Readings) -> Configuration {
        Configuration {
            location: self.target,
            readings: self.reset(readings),
        }
    }

    /// The readings of clock 1 for which the rule applies.
    #[inline]
    pub fn columns(&self) -> Row {
        let high = self.high[0].min(CAP);
        FULL >> (CAP - high) & FULL << self.low[0]
    }

    /// The first of a location's rows for which the rule applies, and one past
    /// the last. If there is one row, every rule applies for it.
    #[inline]
    pub fn rows<const HEIGHT: usize>(&self) -> (usize, usize) {
        if HEIGHT == 1 {
            return (0, 1);
        }
        let end = usize::from(self.high[1]) + 1;
        (usize::from(self.low[1]), end.min(READINGS))
    }
}

impl Sheet {
    pub fn new(automaton: &Automaton) -> Self {
        let mut starts = [0; MAX_LOCATIONS + 1];
        let mut rules = [Rule::NONE; MAX_TRANSITIONS];
        let mut size = 0;
        for (location, outgoing) in automaton.outgoing.iter().enumerate() {
            for transition in outgoing {
                rules[size] = Rule::new(transition);
                size += 1;
            }
            starts[location + 1] = size as u8;
        }
        Sheet {
            locations: automaton.locations,
            clocks: automaton.clocks,
            actions: automaton.actions,
            initial: automaton.initial,
            accepting: automaton.accepting,
            starts,
            rules,
        }
    }

    /// The rules of a location.
    #[inline]
    pub fn rules(&self, location: u8) -> &[Rule] {
        let start = usize::from(self.starts[usize::from(location)]);
        let end = usize::from(self.starts[usize::from(location) + 1]);
        &self.rules[start..end]
    }

    /// The rules of a location and action.
    #[inline]
    pub fn rules_of(&self, location: u8, action: u8) -> impl Iterator<Item = &Rule> {
        let rules = self.rules(location).iter();
        rules.filter(move |rule| rule.action == action)
    }

    /// Where playing an action now leads, if a rule applies.
    #[inline]
    pub fn play(&self, from: Configuration, action: u8) -> Option<Configuration> {
        let mut rules = self.rules_of(from.location, action);
        let rule = rules.find(|rule| rule.applies(from.readings))?;
        Some(rule.play(from.readings))
    }
}
