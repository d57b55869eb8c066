//! Which configurations a list of actions can lead to, as rows of bits, and so
//! whether it has a correction, is extensible, or neither.

use super::limits::{Row, CAP_BIT, FULL, READINGS};
use super::liveness::{Deadlines, Rows};
use super::sheet::{each, in_set, waited, Configuration, Readings, Rule, Sheet};
use crate::sheet::MAX_LOCATIONS;
use std::mem::swap;

/// What a list comes to.
#[derive(Clone, Copy, Debug, PartialEq, Eq)]
pub enum Outlook {
    Correct,
    Extensible,
    /// With whether the lamp is lit where the last action is left out.
    Dead {
        lit: bool,
    },
}

/// A set of configurations. The rows of locations that are not among the
/// places say nothing.
struct Set<const HEIGHT: usize> {
    places: u16,
    rows: Rows<HEIGHT>,
}

/// A tick of clock 1: every bit moves up, the cap stays.
#[inline]
fn tick(row: Row) -> Row {
    row << 1 & FULL | row & CAP_BIT
}

/// All readings from the lowest of a row on.
#[inline]
fn from_lowest(row: Row) -> Row {
    FULL.checked_shl(row.trailing_zeros()).unwrap_or(0) & FULL
}

/// Adds what waiting makes of a location's rows.
#[inline]
fn wait<const HEIGHT: usize>(rows: &mut [Row; HEIGHT]) {
    // The row before is kept at hand: reading it back from memory is slower.
    let mut row = rows[0];
    for next in &mut rows[1..] {
        row = *next | tick(row);
        *next = row;
    }
    rows[HEIGHT - 1] = from_lowest(row);
}

/// A rule without reset.
#[inline]
fn fire_none(rows: &[Row], columns: Row, into: &mut [Row]) -> bool {
    let mut any = 0;
    for (row, into) in rows.iter().zip(into) {
        let enabled = row & columns;
        *into |= enabled;
        any |= enabled;
    }
    any != 0
}

/// A rule that resets clock 1 alone.
#[inline]
fn fire_first(rows: &[Row], columns: Row, into: &mut [Row]) -> bool {
    let mut any = 0;
    for (row, into) in rows.iter().zip(into) {
        let enabled = row & columns;
        // No branch: most of the time of long lists goes here.
        *into |= Row::from(enabled != 0);
        any |= enabled;
    }
    any != 0
}

/// Adds to the target's rows what a rule makes of a location's; answers whether
/// it applies anywhere.
#[inline]
fn fire<const HEIGHT: usize>(rule: &Rule, rows: &[Row; HEIGHT], into: &mut [Row; HEIGHT]) -> bool {
    let columns = rule.columns();
    let (start, end) = rule.rows::<HEIGHT>();
    let rows = &rows[start..end];
    match rule.resets {
        0 => fire_none(rows, columns, &mut into[start..end]),
        1 => fire_first(rows, columns, &mut into[start..end]),
        resets => {
            let any = rows.iter().fold(0, |any, row| any | row) & columns;
            into[0] |= if resets == 2 {
                any
            } else {
                Row::from(any != 0)
            };
            any != 0
        }
    }
}

impl<const HEIGHT: usize> Set<HEIGHT> {
    const EMPTY: Self = Set {
        places: 0,
        rows: [[0; HEIGHT]; MAX_LOCATIONS],
    };

    /// The set of one configuration.
    #[inline]
    fn single(from: Configuration) -> Self {
        let [x, y] = from.readings;
        let mut set = Self::EMPTY;
        set.places = 1 << from.location;
        // If there is one row, it is that of the cap.
        set.rows[usize::from(from.location)][usize::from(y) + HEIGHT - READINGS] = 1 << x;
        set
    }

    /// Waits, and lets `next` be what playing an action makes of the set.
    #[inline]
    fn play(&mut self, sheet: &Sheet, action: u8, next: &mut Self) {
        next.places = 0;
        for location in each(self.places) {
            let rows = &mut self.rows[usize::from(location)];
            wait(rows);
            for rule in sheet.rules_of(location, action) {
                let into = &mut next.rows[usize::from(rule.target)];
                if !in_set(next.places, rule.target) {
                    *into = [0; HEIGHT];
                }
                next.places |= u16::from(fire(rule, rows, into)) << rule.target;
            }
        }
    }

    /// Whether some configuration of the set is live.
    fn any_live(&self, sheet: &Sheet, deadlines: &Deadlines) -> bool {
        self.places & sheet.accepting != 0
            || each(self.places).any(|location| self.live_in(deadlines, location))
    }

    /// Whether some configuration of a location is live. What follows from
    /// another one of the set by a tick needs no look.
    fn live_in(&self, deadlines: &Deadlines, location: u8) -> bool {
        let mut below = 0;
        let rows = self.rows[usize::from(location)].iter().enumerate();
        rows.into_iter().any(|(index, row)| {
            let y = (index + READINGS - HEIGHT) as u8;
            let new = row & !(below << 1);
            below = *row;
            live_in_row(deadlines, location, y, new)
        })
    }
}

/// Whether some reading of clock 1 beside the reading y is live.
#[inline]
fn live_in_row(deadlines: &Deadlines, location: u8, y: u8, mut row: Row) -> bool {
    while row != 0 {
        let readings = [row.trailing_zeros() as u8, y];
        if deadlines.is_live(Configuration { location, readings }) {
            return true;
        }
        row &= row - 1;
    }
    false
}

/// Whether a rule, after some wait, leads to a live configuration.
#[inline]
fn rule_live(deadlines: &Deadlines, rule: &Rule, readings: Readings) -> bool {
    let live = |wait| deadlines.is_live(rule.play(waited(readings, wait)));
    (rule.first_wait(readings)..rule.end_wait(readings)).any(live)
}

/// Whether some next action leads to a live configuration.
pub fn any_next(sheet: &Sheet, deadlines: &Deadlines, from: Configuration) -> bool {
    let mut rules = sheet.rules(from.location).iter();
    rules.any(|rule| rule_live(deadlines, rule, from.readings))
}

/// The outlook of one action. No set is needed.
fn single(sheet: &Sheet, deadlines: &Deadlines, action: u8, from: Configuration) -> Outlook {
    let readings = from.readings;
    let mut extensible = false;
    for rule in sheet.rules_of(from.location, action) {
        if rule.first_wait(readings) < rule.end_wait(readings) {
            if in_set(sheet.accepting, rule.target) {
                return Outlook::Correct;
            }
            extensible = extensible || rule_live(deadlines, rule, readings);
        }
    }
    if extensible {
        Outlook::Extensible
    } else {
        let lit = !any_next(sheet, deadlines, from);
        Outlook::Dead { lit }
    }
}

/// The outlook of two actions or more, by sets of so many rows.
fn outlook_of<const HEIGHT: usize>(
    sheet: &Sheet,
    deadlines: &Deadlines,
    actions: &[u8],
    from: Configuration,
) -> Outlook {
    let (mut set, mut before) = (Set::<HEIGHT>::single(from), Set::EMPTY);
    let (mut set, mut before) = (&mut set, &mut before);
    for action in actions {
        set.play(sheet, *action, before);
        swap(&mut set, &mut before);
    }
    if set.places & sheet.accepting != 0 {
        Outlook::Correct
    } else if set.any_live(sheet, deadlines) {
        Outlook::Extensible
    } else {
        // The waits that the last action added make nothing live that was not.
        let lit = !before.any_live(sheet, deadlines);
        Outlook::Dead { lit }
    }
}

/// The outlook of a list of actions.
pub fn outlook(
    sheet: &Sheet,
    deadlines: &Deadlines,
    actions: &[u8],
    from: Configuration,
) -> Outlook {
    match actions {
        [action] => single(sheet, deadlines, *action, from),
        _ if sheet.clocks == 1 => outlook_of::<1>(sheet, deadlines, actions, from),
        _ => outlook_of::<READINGS>(sheet, deadlines, actions, from),
    }
}

/// Whether nothing that can still come is accepted, with a list pending.
pub fn is_lit(sheet: &Sheet, deadlines: &Deadlines, pending: &[u8], from: Configuration) -> bool {
    if pending.is_empty() {
        !any_next(sheet, deadlines, from)
    } else {
        matches!(
            outlook(sheet, deadlines, pending, from),
            Outlook::Dead { .. }
        )
    }
}
