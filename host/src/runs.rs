//! Runs over exact readings: waiting, the transition that applies, and
//! whether a run satisfies the automaton.

use crate::sheet::{Automaton, Transition, MAX_CLOCKS};

/// The exact readings of the clocks.
pub type Valuation = [u32; MAX_CLOCKS];

/// A location with readings.
#[derive(Clone, Copy, Debug, PartialEq, Eq)]
pub struct Configuration {
    pub location: u8,
    pub valuation: Valuation,
}

/// A configuration and the date at which it holds.
#[derive(Clone, Copy, Debug, PartialEq, Eq)]
pub struct Reached {
    pub configuration: Configuration,
    pub date: u32,
}

/// An action with its date.
#[derive(Clone, Copy, Debug, PartialEq, Eq)]
pub struct TimedAction {
    pub action: u8,
    pub date: u32,
}

/// Where every run starts: the initial location, all readings 0 at the loading
/// date.
pub fn beginning(automaton: &Automaton, loaded: u32) -> Reached {
    Reached {
        configuration: Configuration {
            location: automaton.initial,
            valuation: [0; MAX_CLOCKS],
        },
        date: loaded,
    }
}

/// The transition that applies to an action; I-6 leaves at most one.
pub fn applying<'a>(
    automaton: &'a Automaton,
    configuration: &Configuration,
    action: u8,
) -> Option<&'a Transition> {
    let outgoing = &automaton.outgoing[usize::from(configuration.location)];
    outgoing.iter().find(|transition| {
        let guarded = transition.guards.iter().zip(configuration.valuation);
        transition.action == action
            && guarded
                .into_iter()
                .all(|(guard, reading)| guard.contains(reading))
    })
}

impl Reached {
    /// Waits until a date; `None` if that date has passed.
    pub fn wait_until(mut self, date: u32) -> Option<Reached> {
        let ticks = date.checked_sub(self.date)?;
        for reading in &mut self.configuration.valuation {
            *reading += ticks;
        }
        self.date = date;
        Some(self)
    }

    /// Plays an action now; `None` if no transition applies.
    pub fn play(mut self, automaton: &Automaton, action: u8) -> Option<Reached> {
        let transition = applying(automaton, &self.configuration, action)?;
        self.configuration.location = transition.target;
        for (clock, reset) in transition.resets.iter().enumerate() {
            if *reset {
                self.configuration.valuation[clock] = 0;
            }
        }
        Some(self)
    }

    /// Follows more of a run; `None` if a date falls or no transition applies.
    pub fn follow(self, automaton: &Automaton, run: &[TimedAction]) -> Option<Reached> {
        run.iter().try_fold(self, |reached, timed| {
            reached
                .wait_until(timed.date)?
                .play(automaton, timed.action)
        })
    }
}

/// Whether a run of a box loaded at a date satisfies the automaton.
pub fn satisfies(automaton: &Automaton, loaded: u32, run: &[TimedAction]) -> bool {
    let end = beginning(automaton, loaded).follow(automaton, run);
    end.is_some_and(|reached| automaton.is_accepting(reached.configuration.location))
}
