//! From which configurations an accepting location can still be reached.
//!
//! A diagonal has what waiting makes of the readings (0, y) or (x, 0). Its live
//! positions come first, as one that leads to a live one by a tick is live too.
//! So one number for each location and diagonal, its deadline, tells them all.

use super::limits::{Row, CAP, CAP_BIT, FULL, READINGS};
use super::sheet::{each, in_set, Configuration, Rule, Sheet};
use crate::sheet::MAX_LOCATIONS;

/// The rows of all locations: one for each reading of clock 2, or only that of
/// the cap.
pub type Rows<const HEIGHT: usize> = [[Row; HEIGHT]; MAX_LOCATIONS];

/// The live positions of the diagonals of a location.
#[derive(Clone, Copy, Debug)]
struct Diagonals {
    /// Of those that start at (0, y).
    first: [u8; READINGS],
    /// Of those that start at (x, 0).
    second: [u8; READINGS],
}

/// The deadlines of all diagonals.
#[derive(Clone, Debug)]
pub struct Deadlines([Diagonals; MAX_LOCATIONS]);

/// What leads to a row by a tick, from the row of one reading less.
#[inline]
fn before(row: Row) -> Row {
    row >> 1 | row & CAP_BIT
}

/// All readings up to the highest of a row.
#[inline]
fn up_to_highest(row: Row) -> Row {
    FULL.checked_shr(row.leading_zeros() + READINGS as u32 - Row::BITS)
        .unwrap_or(0)
}

/// The row all of whose bits are those of another one's first.
#[inline]
fn all_or_none(row: Row) -> Row {
    (row & 1).wrapping_neg() & FULL
}

/// The readings of clock 1 from which a rule leads to the target's live ones.
#[inline]
fn leading(target: &[Row], resets: u8, y: usize) -> Row {
    match resets {
        0 => target[y],
        1 => all_or_none(target[y]),
        2 => target[0],
        _ => all_or_none(target[0]),
    }
}

/// Adds to a location's rows that from which a rule leads to live ones; answers
/// whether any is new.
#[inline]
fn add_rule<const HEIGHT: usize>(rows: &mut Rows<HEIGHT>, location: u8, rule: &Rule) -> bool {
    let target = rows[usize::from(rule.target)];
    let own = &mut rows[usize::from(location)];
    let columns = rule.columns();
    let (start, end) = rule.rows::<HEIGHT>();
    let mut new = 0;
    for (y, row) in (start..end).zip(&mut own[start..end]) {
        let more = columns & leading(&target, rule.resets, y);
        new |= more & !*row;
        *row |= more;
    }
    new != 0
}

/// Adds what leads to a location's rows by waiting.
fn close<const HEIGHT: usize>(rows: &mut [Row; HEIGHT]) {
    let mut row = up_to_highest(rows[HEIGHT - 1]);
    rows[HEIGHT - 1] = row;
    for y in (0..HEIGHT - 1).rev() {
        row = rows[y] | before(row);
        rows[y] = row;
    }
}

/// Whether a location has every configuration. Each waits until both readings
/// are the cap, so that one is enough.
#[inline]
fn is_whole<const HEIGHT: usize>(rows: &[Row; HEIGHT]) -> bool {
    rows[HEIGHT - 1] & CAP_BIT != 0
}

/// Whether a rule leads to live ones when both readings are the cap.
#[inline]
fn leads_from_cap<const HEIGHT: usize>(rows: &Rows<HEIGHT>, rule: &Rule) -> bool {
    let (_, end) = rule.rows::<HEIGHT>();
    let target = &rows[usize::from(rule.target)];
    let row = rule.columns() & leading(target, rule.resets, HEIGHT - 1);
    end == HEIGHT && row & CAP_BIT != 0
}

/// Goes through the rules of a location that lead to a changed one.
fn improve<const HEIGHT: usize>(
    sheet: &Sheet,
    rows: &mut Rows<HEIGHT>,
    location: u8,
    changed: u16,
) -> bool {
    let index = usize::from(location);
    let leads_on = |rule: &&Rule| in_set(changed, rule.target);
    if is_whole(&rows[index]) {
        return false;
    }
    let mut rules = sheet.rules(location).iter().filter(leads_on);
    if rules.any(|rule| leads_from_cap(rows, rule)) {
        rows[index] = [FULL; HEIGHT];
        return true;
    }
    let mut any = false;
    for rule in sheet.rules(location).iter().filter(leads_on) {
        any |= add_rule(rows, location, rule);
    }
    if any {
        close(&mut rows[index]);
    }
    any
}

/// One sweep over the locations, the last one first: which have changed. What
/// changes counts for those after it.
fn sweep<const HEIGHT: usize>(sheet: &Sheet, rows: &mut Rows<HEIGHT>, changed: u16) -> u16 {
    let mut next = 0;
    for location in (0..sheet.locations).rev() {
        if improve(sheet, rows, location, changed | next) {
            next |= 1 << location;
        }
    }
    next
}

/// The live configurations.
fn live_rows<const HEIGHT: usize>(sheet: &Sheet) -> Rows<HEIGHT> {
    let mut rows = [[0; HEIGHT]; MAX_LOCATIONS];
    for location in each(sheet.accepting) {
        rows[usize::from(location)] = [FULL; HEIGHT];
    }
    let mut changed = sheet.accepting;
    while changed != 0 {
        changed = sweep(sheet, &mut rows, changed);
    }
    rows
}

impl Diagonals {
    const NONE: Diagonals = Diagonals {
        first: [0; READINGS],
        second: [0; READINGS],
    };

    /// Of a location that has every configuration.
    const ALL: Diagonals = Diagonals {
        first: [CAP + 1; READINGS],
        second: [CAP + 1; READINGS],
    };

    /// The deadlines of a location with one clock: only that from (0, cap).
    fn of_one_clock(row: Row) -> Self {
        let mut diagonals = Diagonals::NONE;
        diagonals.first[usize::from(CAP)] = row.trailing_ones() as u8;
        diagonals
    }

    /// The deadlines of a location with two clocks.
    fn of_two_clocks(rows: &[Row; READINGS]) -> Self {
        if is_whole(rows) {
            return Diagonals::ALL;
        }
        let mut diagonals = Diagonals::NONE;
        for (start, row) in rows.iter().enumerate() {
            diagonals.first[start] = (row & 1) as u8 * (CAP + 1);
            diagonals.second[start] = (rows[0] >> start & 1) as u8 * (CAP + 1);
        }
        for (y, pair) in rows.windows(2).enumerate() {
            diagonals.end(y as u8, pair[0] & !before(pair[1]));
        }
        let last = rows[usize::from(CAP)];
        diagonals.first[usize::from(CAP)] = last.trailing_ones() as u8;
        diagonals
    }

    /// Ends diagonals at readings of clock 1 beside the reading y: these are
    /// live, and what a tick makes of them is not.
    #[inline]
    fn end(&mut self, y: u8, mut row: Row) {
        while row != 0 {
            let x = row.trailing_zeros() as u8;
            if x <= y {
                self.first[usize::from(y - x)] = x + 1;
            } else {
                self.second[usize::from(x - y)] = y + 1;
            }
            row &= row - 1;
        }
    }
}

impl Deadlines {
    pub fn new(sheet: &Sheet) -> Self {
        if sheet.clocks == 1 {
            let rows = live_rows::<1>(sheet);
            Deadlines(rows.map(|[row]| Diagonals::of_one_clock(row)))
        } else {
            let rows = live_rows::<READINGS>(sheet);
            let mut all = [Diagonals::NONE; MAX_LOCATIONS];
            for location in 0..usize::from(sheet.locations) {
                all[location] = Diagonals::of_two_clocks(&rows[location]);
            }
            Deadlines(all)
        }
    }

    /// Whether an accepting location can still be reached.
    #[inline]
    pub fn is_live(&self, from: Configuration) -> bool {
        let diagonals = &self.0[usize::from(from.location)];
        let [x, y] = from.readings;
        if y == CAP {
            // With one clock there is no other case.
            x < diagonals.first[usize::from(CAP)]
        } else if x <= y {
            x < diagonals.first[usize::from(y - x)]
        } else {
            y < diagonals.second[usize::from(x - y)]
        }
    }
}
