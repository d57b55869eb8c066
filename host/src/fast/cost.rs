//! The least ticks for a list that has a correction, and its dates. Kept are
//! only the costs right after a reset of one clock, by the other's reading.

use super::limits::{BATCH, CAP, NEVER, NOWHERE, READINGS};
use super::sheet::{each, in_set, later, waited, Configuration, Readings, Rule, Sheet};
use crate::sheet::{MAX_CLOCKS, MAX_LOCATIONS};

/// Entries for lists of up to five actions, and for all lists.
const FEW: usize = 4 * MAX_LOCATIONS;
const ALL: usize = (BATCH - 1) * MAX_LOCATIONS;

/// Costs plus 1, and 0 for what is not known: by the clock that was reset and
/// the reading of the other one.
type Entry = [[u16; READINGS]; MAX_CLOCKS];

/// A list of actions, and what is known of its costs.
struct Search<'a> {
    sheet: &'a Sheet,
    actions: &'a [u8],
    /// An entry for each number of actions played, from 1 on, and location.
    known: &'a mut [Entry],
}

/// What is reached on a diagonal without resets.
struct Chain {
    /// The first position of each location among the places.
    here: [u8; MAX_LOCATIONS],
    places: u16,
    /// The least cost so far by way of a reset.
    best: u16,
}

/// Waits from a first one to below an end.
struct Waits {
    start: u8,
    end: u8,
}

/// The dates of a correction, their last, and where it leads.
pub struct Correction {
    pub dates: [u32; BATCH],
    pub last: u32,
    pub reached: Configuration,
}

impl Search<'_> {
    /// The least cost from a configuration with some actions played.
    fn cost(&mut self, played: usize, from: Configuration) -> u16 {
        if played == self.actions.len() {
            let accepted = in_set(self.sheet.accepting, from.location);
            return if accepted { 0 } else { NEVER };
        }
        match from.readings {
            _ if played == 0 => self.chain(played, from),
            [0, y] => self.after_reset::<0>(played, from.location, y),
            [x, 0] => self.after_reset::<1>(played, from.location, x),
            _ => self.chain(played, from),
        }
    }

    /// The least cost right after a reset of one clock, neither before the
    /// first action nor after the last.
    #[inline]
    fn after_reset<const CLOCK: usize>(&mut self, played: usize, location: u8, other: u8) -> u16 {
        let entry = (played - 1) * MAX_LOCATIONS + usize::from(location);
        let known = self.known[entry][CLOCK][usize::from(other)];
        if known != 0 {
            return known - 1;
        }
        let readings = if CLOCK == 0 { [0, other] } else { [other, 0] };
        let cost = self.chain(played, Configuration { location, readings });
        self.known[entry][CLOCK][usize::from(other)] = cost + 1;
        cost
    }

    /// The least cost by a rule that resets one clock, if below `best`.
    #[inline]
    fn over<const CLOCK: usize>(
        &mut self,
        played: usize,
        target: u8,
        other: u8,
        waits: Waits,
        mut best: u16,
    ) -> u16 {
        // Longer waits than the one that caps the other reading lead nowhere else.
        let end = waits.end.min(waits.start.max(CAP - other) + 1);
        let mut wait = waits.start;
        while wait < end && u16::from(wait) < best {
            let cost = self.after_reset::<CLOCK>(played, target, later(other, wait));
            best = best.min(cost + u16::from(wait));
            wait += 1;
        }
        best
    }

    /// The least cost from a configuration: as long as no rule resets, only the
    /// location and the position on the diagonal change, and earlier is better.
    fn chain(&mut self, played: usize, from: Configuration) -> u16 {
        let mut now = Chain {
            here: [NOWHERE; MAX_LOCATIONS],
            places: 1 << from.location,
            best: NEVER,
        };
        now.here[usize::from(from.location)] = 0;
        for played in played..self.actions.len() {
            if now.places == 0 {
                return now.best;
            }
            now = self.step(played, from.readings, &now);
        }
        let ends = each(now.places & self.sheet.accepting);
        ends.fold(now.best, |best, location| {
            best.min(now.here[usize::from(location)].into())
        })
    }

    /// The chain one action later.
    #[inline]
    fn step(&mut self, played: usize, readings: Readings, now: &Chain) -> Chain {
        let mut next = Chain {
            here: [NOWHERE; MAX_LOCATIONS],
            places: 0,
            best: now.best,
        };
        let sheet = self.sheet;
        for location in each(now.places) {
            let here = now.here[usize::from(location)];
            for rule in sheet.rules_of(location, self.actions[played]) {
                let waits = Waits {
                    start: rule.first_wait(readings).max(here),
                    end: rule.end_wait(readings),
                };
                self.follow(played, rule, readings, waits, &mut next);
            }
        }
        next
    }

    /// One rule on the way along a diagonal.
    #[inline]
    fn follow(
        &mut self,
        played: usize,
        rule: &Rule,
        readings: Readings,
        waits: Waits,
        next: &mut Chain,
    ) {
        let start = waits.start;
        if waits.end <= start || next.best <= start.into() {
            return;
        }
        if rule.resets == 0 || played + 1 == self.actions.len() {
            next.places |= 1 << rule.target;
            let here = &mut next.here[usize::from(rule.target)];
            *here = start.min(*here);
            return;
        }
        let (played, target, best) = (played + 1, rule.target, next.best);
        next.best = match rule.resets {
            1 => self.over::<0>(played, target, readings[1], waits, best),
            2 => self.over::<1>(played, target, readings[0], waits, best),
            _ => best.min(self.after_reset::<0>(played, target, 0) + u16::from(start)),
        };
    }

    /// The correction: each action is played as soon as that keeps the cost.
    fn correction(&mut self, from: Configuration, start: u32) -> Correction {
        let mut left = self.cost(0, from);
        let last = start + u32::from(left);
        let (mut reached, mut dates) = (from, [0; BATCH]);
        for (played, action) in self.actions.iter().enumerate() {
            loop {
                let next = self.sheet.play(reached, *action);
                if let Some(next) = next.filter(|next| self.cost(played + 1, *next) == left) {
                    dates[played] = last - u32::from(left);
                    reached = next;
                    break;
                }
                reached.readings = waited(reached.readings, 1);
                left -= 1;
            }
        }
        Correction {
            dates,
            last,
            reached,
        }
    }
}

/// The first correction from a date on of a list that has one.
pub fn correction(sheet: &Sheet, actions: &[u8], from: Configuration, date: u32) -> Correction {
    match actions.len() {
        0..=1 => correction_by::<0>(sheet, actions, from, date),
        2..=5 => correction_by::<FEW>(sheet, actions, from, date),
        _ => correction_by::<ALL>(sheet, actions, from, date),
    }
}

/// The same, with so many entries for costs.
#[inline(never)]
fn correction_by<const ENTRIES: usize>(
    sheet: &Sheet,
    actions: &[u8],
    from: Configuration,
    date: u32,
) -> Correction {
    let mut search = Search {
        sheet,
        actions,
        known: &mut [[[0; READINGS]; MAX_CLOCKS]; ENTRIES],
    };
    search.correction(from, date)
}
