//! The ranges of the numbers in a text, with the messages for those outside.

use super::Checks;
use crate::desk::COLLECTION;
use crate::limits::{LAST_DATE, MAX_BOUND};
use crate::sheet::{MAX_ACTIONS, MAX_CLOCKS, MAX_LOCATIONS, UNBOUNDED};
use std::ops::Range;

/// What a sheet's numbers are held against: its counts, where they are known,
/// and which checks are made.
pub struct Scope {
    pub checks: Checks,
    pub locations: Option<u8>,
    pub clocks: Option<u8>,
    pub actions: Option<u8>,
}

/// The numbers that a byte has.
const BYTE: Range<u64> = 0..256;
/// The bounds that a rule may have.
const BOUND: Range<u64> = 0..MAX_BOUND as u64 + 1;

impl Scope {
    /// One of the header's counts, at most `most`.
    pub fn count(&self, name: &str, number: u64, most: usize) -> Result<u8, String> {
        let range = self.choose(1..most as u64 + 1, BYTE);
        in_range(name, number, range)
    }

    /// A location that a byte names.
    pub fn location(&self, number: u64) -> Result<u8, String> {
        let range = self.choose(below(self.locations, MAX_LOCATIONS), BYTE);
        there("location", number, range)
    }

    /// A location in the accepting set, which has a bit for each.
    pub fn accepting(&self, number: u64) -> Result<u8, String> {
        let bits = 0..u64::from(u16::BITS);
        let range = self.choose(below(self.locations, MAX_LOCATIONS), bits);
        there("location", number, range)
    }

    /// A location that a rule leads from; no other has a place for rules.
    pub fn source(&self, number: u64) -> Result<u8, String> {
        let known = |most| below(self.locations, most);
        there(
            "location",
            number,
            self.choose(known(MAX_LOCATIONS), known(256)),
        )
    }

    /// The command of a rule.
    pub fn action(&self, number: u64) -> Result<u8, String> {
        let range = self.choose(below(self.actions, MAX_ACTIONS), BYTE);
        there("command", number, range)
    }

    /// A clock whose readings have bounds.
    pub fn guarded_clock(&self, number: u64) -> Result<u8, String> {
        let range = self.choose(self.clocks(), 1..MAX_CLOCKS as u64 + 1);
        there("clock", number, range)
    }

    /// A clock in the reset set, a byte with a bit for each.
    pub fn reset_clock(&self, number: u64) -> Result<u8, String> {
        let range = self.choose(self.clocks(), 1..u64::from(u8::BITS) + 1);
        there("clock", number, range)
    }

    /// The lowest reading of a rule.
    pub fn low(&self, number: u64) -> Result<u8, String> {
        in_range("bound", number, self.choose(BOUND, BYTE))
    }

    /// The highest reading of a rule, if there is one.
    pub fn high(&self, number: u64) -> Result<u8, String> {
        let range = self.choose(BOUND, 0..u64::from(UNBOUNDED));
        let hint = "for no upper bound, leave `to` out";
        in_range("bound", number, range).map_err(|message| format!("{message}; {hint}"))
    }

    /// A low and a high that some reading lies between.
    pub fn guard(&self, low: u8, high: u8) -> Result<[u8; 2], String> {
        if self.checks == Checks::All && low > high {
            return Err(format!(
                "low {low} is above high {high}; no reading is from {low} to {high}"
            ));
        }
        Ok([low, high])
    }

    /// The loading date, which fits 32 bits as those of calls do.
    pub fn loading_date(&self, number: u64) -> Result<u32, String> {
        let loaded = date(number)?;
        if self.checks == Checks::All && loaded > LAST_DATE {
            let range = expected(&(0..u64::from(LAST_DATE) + 1));
            return Err(format!("loading date {loaded} is out of range; {range}"));
        }
        Ok(loaded)
    }

    fn clocks(&self) -> Range<u64> {
        let clocks = self.clocks.map_or(MAX_CLOCKS as u64, u64::from);
        1..clocks + 1
    }

    /// The range for the checks that are made.
    fn choose(&self, all: Range<u64>, bytes: Range<u64>) -> Range<u64> {
        match self.checks {
            Checks::All => all,
            Checks::Bytes => bytes,
        }
    }
}

/// The command of an offer; the desk program answers those not in the sheet.
pub fn offered(number: u64) -> Result<u8, String> {
    in_range("command", number, 0..u64::from(COLLECTION))
}

/// The date of a call; the desk program answers those that are too late.
pub fn date(number: u64) -> Result<u32, String> {
    let most = u32::MAX;
    let message = || format!("date {number} does not fit 32 bits; 0 to {most} is expected");
    u32::try_from(number).map_err(|_| message())
}

/// A byte left over.
pub fn left_over(number: u64) -> Result<u8, String> {
    in_range("byte", number, BYTE)
}

/// The numbers below a count, or below the most there can be.
fn below(count: Option<u8>, most: usize) -> Range<u64> {
    0..count.map_or(most as u64, u64::from)
}

/// A number of something that must be there.
fn there(what: &str, number: u64, range: Range<u64>) -> Result<u8, String> {
    let message = || format!("there is no {what} {number}; {}", expected(&range));
    byte_in(number, &range).ok_or_else(message)
}

/// A number that must be in its range.
fn in_range(what: &str, number: u64, range: Range<u64>) -> Result<u8, String> {
    let message = || format!("{what} {number} is out of range; {}", expected(&range));
    byte_in(number, &range).ok_or_else(message)
}

fn byte_in(number: u64, range: &Range<u64>) -> Option<u8> {
    let inside = range.contains(&number);
    inside.then(|| u8::try_from(number).ok()).flatten()
}

fn expected(range: &Range<u64>) -> String {
    match range.end.saturating_sub(range.start) {
        0 => "none is expected".into(),
        1 => format!("{} is expected", range.start),
        _ => format!("{} to {} is expected", range.start, range.end - 1),
    }
}
