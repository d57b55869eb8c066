//! Reads the bytes of a sheet and checks them, I-1 to I-6 in that order,
//! each check over the whole sheet before the next one starts. The loading
//! date is checked after that.

use crate::limits::{LAST_DATE, MAX_BOUND, MAX_TRANSITIONS};
use crate::refusal::Refusal;

/// Most locations of an automaton; the accepting set has a bit for each.
pub const MAX_LOCATIONS: usize = 16;
/// Most actions of an automaton.
pub const MAX_ACTIONS: usize = 16;
/// Most clocks of an automaton.
pub const MAX_CLOCKS: usize = 2;
/// Bytes before the pairs of offset and length.
pub const HEADER: usize = 6;
/// Bytes of one pair of offset and length.
pub const PAIR: usize = 4;
/// Bytes of one transition.
pub const RULE: usize = 7;
/// The high byte that stands for no upper bound.
pub const UNBOUNDED: u8 = 255;
/// Most bytes of a sheet.
pub const LONGEST: usize = 518;

/// The readings from `low` to `high`, both included; `None` has no upper end.
#[derive(Clone, Copy, Debug, PartialEq, Eq)]
pub struct Interval {
    pub low: u8,
    pub high: Option<u8>,
}

impl Interval {
    /// The interval that two bytes stand for.
    pub fn from_bytes(low: u8, high: u8) -> Self {
        let high = (high != UNBOUNDED).then_some(high);
        Interval { low, high }
    }

    /// Whether an exact reading lies in the interval.
    pub fn contains(&self, reading: u32) -> bool {
        let below_high = match self.high {
            Some(high) => reading <= u32::from(high),
            None => true,
        };
        u32::from(self.low) <= reading && below_high
    }

    /// Whether some reading lies in both intervals.
    pub fn meets(&self, other: &Interval) -> bool {
        // If any reading lies in both, the larger low does.
        let low = u32::from(self.low.max(other.low));
        self.contains(low) && other.contains(low)
    }
}

/// One transition of a location.
#[derive(Clone, Copy, Debug, PartialEq, Eq)]
pub struct Transition {
    pub action: u8,
    pub target: u8,
    pub resets: [bool; MAX_CLOCKS],
    pub guards: [Interval; MAX_CLOCKS],
}

impl Transition {
    fn from_bytes(rule: &[u8]) -> Self {
        Transition {
            action: rule[0],
            target: rule[1],
            resets: [rule[2] & 1 != 0, rule[2] & 2 != 0],
            guards: [
                Interval::from_bytes(rule[3], rule[4]),
                Interval::from_bytes(rule[5], rule[6]),
            ],
        }
    }
}

/// A checked automaton.
#[derive(Clone, Debug, PartialEq, Eq)]
pub struct Automaton {
    pub locations: u8,
    pub clocks: u8,
    pub actions: u8,
    pub initial: u8,
    pub accepting: u16,
    /// The transitions of each location.
    pub outgoing: Vec<Vec<Transition>>,
}

impl Automaton {
    /// The number of transitions of all locations.
    pub fn transition_count(&self) -> usize {
        self.outgoing.iter().map(Vec::len).sum()
    }

    /// Whether a location is accepting.
    pub fn is_accepting(&self, location: u8) -> bool {
        self.accepting >> location & 1 == 1
    }
}

/// Reads a sheet that is loaded at a date. Its own reasons come before I-8.
pub fn load(sheet: &[u8], date: u32) -> Result<Automaton, Refusal> {
    let automaton = read(sheet)?;
    if date > LAST_DATE {
        return Err(Refusal::I8);
    }
    Ok(automaton)
}

/// Reads a sheet, or gives the first reason against it.
pub fn read(sheet: &[u8]) -> Result<Automaton, Refusal> {
    if sheet.len() < HEADER || sheet.len() > LONGEST {
        return Err(Refusal::I1);
    }
    if !counts_in_range(sheet) {
        return Err(Refusal::I2);
    }
    if !locations_in_range(sheet) {
        return Err(Refusal::I3);
    }
    let tables = tables(sheet).ok_or(Refusal::I4)?;
    let mut rules = tables.iter().flat_map(|table| table.chunks_exact(RULE));
    if !rules.all(|rule| rule_in_range(sheet, rule)) {
        return Err(Refusal::I5);
    }
    let automaton = build(sheet, &tables);
    if automaton.outgoing.iter().any(|rules| ambiguous(rules)) {
        return Err(Refusal::I6);
    }
    Ok(automaton)
}

/// I-2: the numbers of locations, clocks and actions.
fn counts_in_range(sheet: &[u8]) -> bool {
    (1..=MAX_LOCATIONS).contains(&usize::from(sheet[0]))
        && (1..=MAX_CLOCKS).contains(&usize::from(sheet[1]))
        && (1..=MAX_ACTIONS).contains(&usize::from(sheet[2]))
}

/// I-3: the initial location and the accepting set.
fn locations_in_range(sheet: &[u8]) -> bool {
    let locations = sheet[0];
    let accepting = two_bytes(sheet, 4);
    sheet[3] < locations && accepting >> locations == 0
}

/// I-4: follows the pairs of offset and length and gives the transition bytes
/// of each location, or nothing if the layout is broken.
fn tables(sheet: &[u8]) -> Option<Vec<&[u8]>> {
    let locations = usize::from(sheet[0]);
    let mut end = HEADER + PAIR * locations;
    if sheet.len() < end {
        return None;
    }
    let mut tables = Vec::with_capacity(locations);
    for location in 0..locations {
        let pair = HEADER + PAIR * location;
        let offset = two_bytes(sheet, pair);
        let length = two_bytes(sheet, pair + 2);
        if offset != end || !length.is_multiple_of(RULE) {
            return None;
        }
        end = offset + length;
        // A table past the end cannot be followed by one that ends there.
        tables.push(sheet.get(offset..end)?);
    }
    let bytes: usize = tables.iter().map(|table| table.len()).sum();
    (end == sheet.len() && bytes / RULE <= MAX_TRANSITIONS).then_some(tables)
}

/// I-5: the fields of one transition.
fn rule_in_range(sheet: &[u8], rule: &[u8]) -> bool {
    let (locations, clocks, actions) = (sheet[0], sheet[1], sheet[2]);
    let one_clock = clocks > 1 || (rule[2] & 2 == 0 && rule[5] == 0 && rule[6] == UNBOUNDED);
    rule[0] < actions
        && rule[1] < locations
        && rule[2] <= 3
        && bounds_in_range(rule[3], rule[4])
        && bounds_in_range(rule[5], rule[6])
        && one_clock
}

/// A low and a high in range, the low not above the high.
fn bounds_in_range(low: u8, high: u8) -> bool {
    low <= MAX_BOUND && (high <= MAX_BOUND || high == UNBOUNDED) && low <= high
}

/// I-6: two transitions of one location share an action and some readings.
fn ambiguous(transitions: &[Transition]) -> bool {
    transitions.iter().enumerate().any(|(index, one)| {
        transitions[index + 1..].iter().any(|other| {
            one.action == other.action
                && one.guards[0].meets(&other.guards[0])
                && one.guards[1].meets(&other.guards[1])
        })
    })
}

/// Makes the automaton once every byte is known to be in range.
fn build(sheet: &[u8], tables: &[&[u8]]) -> Automaton {
    let table_of = |table: &&[u8]| {
        let rules = table.chunks_exact(RULE);
        rules.map(Transition::from_bytes).collect()
    };
    Automaton {
        locations: sheet[0],
        clocks: sheet[1],
        actions: sheet[2],
        initial: sheet[3],
        accepting: u16::from_le_bytes([sheet[4], sheet[5]]),
        outgoing: tables.iter().map(table_of).collect(),
    }
}

/// A two-byte number, low byte first.
fn two_bytes(sheet: &[u8], at: usize) -> usize {
    usize::from(u16::from_le_bytes([sheet[at], sheet[at + 1]]))
}
