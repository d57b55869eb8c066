//! The product of two automata: one sheet that a run satisfies exactly when it
//! satisfies both.

mod counted;
mod kinds;
mod outcome;

pub mod compare;
pub mod words;

pub use kinds::{kind_named, Case, Kind, KINDS};
pub use outcome::{reason, Joiner};

use crate::generate::Draft;
use crate::limits::MAX_TRANSITIONS;
use crate::refusal::Refusal;
use crate::sheet::{
    self, Automaton, Interval, Transition, LONGEST, MAX_CLOCKS, MAX_LOCATIONS, RULE, UNBOUNDED,
};

/// Bytes of the output: a longest sheet fits.
pub const OUTPUT: usize = LONGEST;

/// Joins two sheets into the output and gives the length of the joined one; the
/// bytes after it are 0. A refusal leaves the output as it was.
pub fn join(first: &[u8], second: &[u8], output: &mut [u8]) -> Result<usize, Refusal> {
    if output.len() != OUTPUT {
        return Err(Refusal::I9);
    }
    let first = sheet::read(first)?;
    let second = sheet::read(second)?;
    if first.actions != second.actions {
        return Err(Refusal::I12);
    }
    if clock_count(&first, &second) > MAX_CLOCKS || location_count(&first, &second) > MAX_LOCATIONS
    {
        return Err(Refusal::I13);
    }
    if rule_count(&first, &second) > MAX_TRANSITIONS {
        return Err(Refusal::I14);
    }
    let joined = product(&first, &second).bytes();
    let (sheet, rest) = output.split_at_mut(joined.len());
    sheet.copy_from_slice(&joined);
    rest.fill(0);
    Ok(joined.len())
}

/// The clocks of both.
pub fn clock_count(first: &Automaton, second: &Automaton) -> usize {
    usize::from(first.clocks) + usize::from(second.clocks)
}

/// The pairs of locations.
pub fn location_count(first: &Automaton, second: &Automaton) -> usize {
    usize::from(first.locations) * usize::from(second.locations)
}

/// The pairs of transitions that have the same action.
pub fn rule_count(first: &Automaton, second: &Automaton) -> usize {
    let transitions = first.outgoing.iter().flatten();
    let partners = |one: &Transition| {
        let others = second.outgoing.iter().flatten();
        others.filter(|other| other.action == one.action).count()
    };
    transitions.map(partners).sum()
}

/// The product of two automata with one clock each. The pair (i, j) of locations
/// is i times the second's count, plus j.
fn product(first: &Automaton, second: &Automaton) -> Draft {
    let number = |i: u8, j: u8| i * second.locations + j;
    let mut accepting = 0;
    let mut outgoing = Vec::new();
    for (i, ones) in (0..).zip(&first.outgoing) {
        for (j, others) in (0..).zip(&second.outgoing) {
            let both = first.is_accepting(i) && second.is_accepting(j);
            accepting |= u16::from(both) << number(i, j);
            outgoing.push(rules(ones, others, number));
        }
    }
    Draft {
        locations: first.locations * second.locations,
        clocks: first.clocks + second.clocks,
        actions: first.actions,
        initial: number(first.initial, second.initial),
        accepting,
        outgoing,
    }
}

/// A rule for each two transitions of a pair of locations that have the same
/// action, in the first one's order, then the second's.
fn rules(
    ones: &[Transition],
    others: &[Transition],
    number: impl Fn(u8, u8) -> u8,
) -> Vec<[u8; RULE]> {
    let mut rules = Vec::new();
    for one in ones {
        for other in others.iter().filter(|other| other.action == one.action) {
            let target = number(one.target, other.target);
            let resets = u8::from(one.resets[0]) + 2 * u8::from(other.resets[0]);
            let [low_1, high_1] = bounds(one.guards[0]);
            let [low_2, high_2] = bounds(other.guards[0]);
            let rule = [one.action, target, resets, low_1, high_1, low_2, high_2];
            rules.push(rule);
        }
    }
    rules
}

/// The two bytes of an interval.
fn bounds(interval: Interval) -> [u8; 2] {
    [interval.low, interval.high.unwrap_or(UNBOUNDED)]
}
