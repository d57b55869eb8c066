//! Sets of configurations as bits. Readings above the largest bound all act
//! alike, so a set keeps each reading capped at the next one.

use crate::limits::MAX_BOUND;
use crate::runs::Configuration;
use crate::sheet::{Automaton, Interval, Transition, MAX_LOCATIONS};

/// The cap: the least reading above every finite bound.
pub const CAP: usize = MAX_BOUND as usize + 1;
/// How many readings differ once they are capped.
const READINGS: usize = CAP + 1;

/// A bit per reading of clock 1; no other bit is ever set.
type Row = u64;
/// The row of all readings.
const FULL: Row = Row::MAX >> (Row::BITS - READINGS as u32);

/// For one location: a row per reading of clock 2.
type Grid = [Row; READINGS];

/// A set of configurations with capped readings.
#[derive(Clone, PartialEq, Eq)]
pub struct ConfigurationSet {
    /// Bit i tells whether location i has any configuration in the set.
    occupied: u16,
    grids: [Grid; MAX_LOCATIONS],
}

impl ConfigurationSet {
    /// The empty set.
    pub fn empty() -> Self {
        ConfigurationSet {
            occupied: 0,
            grids: [[0; READINGS]; MAX_LOCATIONS],
        }
    }

    /// The set of one configuration.
    pub fn single(configuration: &Configuration) -> Self {
        let [x, y] = configuration
            .valuation
            .map(|reading| reading.min(CAP as u32));
        let mut set = Self::empty();
        set.occupied = 1 << configuration.location;
        set.grids[usize::from(configuration.location)][y as usize] = 1 << x;
        set
    }

    /// Whether the set has a configuration in an accepting location.
    pub fn accepts(&self, automaton: &Automaton) -> bool {
        self.occupied & automaton.accepting != 0
    }

    /// The locations that have a configuration in the set.
    fn locations(&self) -> impl Iterator<Item = usize> {
        let occupied = self.occupied;
        (0..MAX_LOCATIONS).filter(move |location| occupied >> location & 1 == 1)
    }

    /// Lets one tick pass in every configuration.
    pub fn tick(&mut self) {
        for location in self.locations() {
            let grid = &mut self.grids[location];
            grid[CAP] = tick_row(grid[CAP] | grid[CAP - 1]);
            for y in (1..CAP).rev() {
                grid[y] = tick_row(grid[y - 1]);
            }
            grid[0] = 0;
        }
    }

    /// Adds what any number of ticks makes of the configurations.
    pub fn wait(&mut self) {
        for location in self.locations() {
            let grid = &mut self.grids[location];
            for y in 0..CAP {
                grid[y + 1] |= tick_row(grid[y]);
            }
            // In the capped row only clock 1 still moves, up to its cap.
            if grid[CAP] != 0 {
                grid[CAP] = FULL << grid[CAP].trailing_zeros() & FULL;
            }
        }
    }

    /// Adds the configurations of another set.
    pub fn add(&mut self, other: &ConfigurationSet) {
        for location in other.locations() {
            let rows = self.grids[location].iter_mut();
            for (row, more) in rows.zip(&other.grids[location]) {
                *row |= more;
            }
        }
        self.occupied |= other.occupied;
    }

    /// Adds to `into` what playing an action makes of this set.
    pub fn play(&self, automaton: &Automaton, action: u8, into: &mut ConfigurationSet) {
        for location in self.locations() {
            for transition in &automaton.outgoing[location] {
                if transition.action == action {
                    self.fire(location, transition, into);
                }
            }
        }
    }

    /// Adds to `into` what playing any one action makes of this set.
    pub fn play_any(&self, automaton: &Automaton, into: &mut ConfigurationSet) {
        for location in self.locations() {
            for transition in &automaton.outgoing[location] {
                self.fire(location, transition, into);
            }
        }
    }

    /// Adds to `into` what one transition makes of a location's grid.
    fn fire(&self, location: usize, transition: &Transition, into: &mut ConfigurationSet) {
        let [guard_x, guard_y] = transition.guards;
        let [reset_x, reset_y] = transition.resets;
        let target = usize::from(transition.target);
        let columns = columns(guard_x);
        let mut any = false;
        for y in usize::from(guard_y.low)..=capped_high(guard_y) {
            let enabled = self.grids[location][y] & columns;
            if enabled != 0 {
                let row = if reset_y { 0 } else { y };
                into.grids[target][row] |= if reset_x { 1 } else { enabled };
                any = true;
            }
        }
        into.occupied |= u16::from(any) << target;
    }
}

/// One tick of clock 1 in a row: every bit moves up, the cap stays.
fn tick_row(row: Row) -> Row {
    row << 1 & FULL | row & 1 << CAP
}

/// The capped readings at or below an interval's high.
fn capped_high(interval: Interval) -> usize {
    interval.high.map_or(CAP, usize::from)
}

/// The bits of the readings that an interval contains.
fn columns(interval: Interval) -> Row {
    let from_low = FULL << interval.low;
    let to_high = FULL >> (CAP - capped_high(interval));
    from_low & to_high
}
