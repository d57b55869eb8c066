//! Logs: actions with their dates, or with the gaps since the action before,
//! and the way from each format to the other.

pub mod compare;
mod draw;
mod kinds;
mod outcome;

pub use kinds::{kind_named, Case, Kind, KINDS};
pub use outcome::{reason, Converter};

use crate::limits::LAST_DATE;
use crate::refusal::Refusal;
use std::fmt;

/// Bytes of a record: four of ticks, low byte first, and the action.
pub const RECORD: usize = 5;

/// What the ticks of a log's records are.
#[derive(Clone, Copy, Debug, PartialEq, Eq, PartialOrd, Ord)]
pub enum Format {
    /// Ticks since 0.
    Dates,
    /// Ticks since the record before, or since 0 for the first.
    Gaps,
}

impl Format {
    /// The format that a log in this one is converted to.
    pub fn other(self) -> Format {
        match self {
            Format::Dates => Format::Gaps,
            Format::Gaps => Format::Dates,
        }
    }
}

impl fmt::Display for Format {
    fn fmt(&self, out: &mut fmt::Formatter<'_>) -> fmt::Result {
        out.write_str(match self {
            Format::Dates => "dates",
            Format::Gaps => "gaps",
        })
    }
}

/// A record of either format.
#[derive(Clone, Copy, Debug, PartialEq, Eq)]
pub struct Record {
    pub ticks: u32,
    pub action: u8,
}

impl Record {
    /// The record as it stands in a log.
    pub fn bytes(self) -> [u8; RECORD] {
        let [low, second, third, high] = self.ticks.to_le_bytes();
        [low, second, third, high, self.action]
    }
}

/// Why a log is not converted.
#[derive(Clone, Copy, Debug, PartialEq, Eq)]
pub enum Refused {
    /// I-9: the log has no whole number of records, or the output another length.
    Length,
    /// I-10: the record at this place, from 0, has a date or sum above the limit.
    Late(usize),
    /// I-11: the record at this place has a date below the one before it.
    Falling(usize),
}

impl Refused {
    /// The reason's name.
    pub fn reason(self) -> Refusal {
        match self {
            Refused::Length => Refusal::I9,
            Refused::Late(_) => Refusal::I10,
            Refused::Falling(_) => Refusal::I11,
        }
    }

    /// The place of the record at fault, from 0.
    pub fn place(self) -> Option<usize> {
        match self {
            Refused::Length => None,
            Refused::Late(place) | Refused::Falling(place) => Some(place),
        }
    }
}

/// Converts a log of a format to the other one. A refusal leaves the output.
pub fn convert(from: Format, log: &[u8], output: &mut [u8]) -> Result<(), Refused> {
    if !log.len().is_multiple_of(RECORD) || output.len() != log.len() {
        return Err(Refused::Length);
    }
    let records = records(log);
    let dates = dates(from, &records);
    if let Some(refused) = first_fault(&dates) {
        return Err(refused);
    }
    let ticks = match from {
        Format::Dates => differences(&dates),
        Format::Gaps => dates,
    };
    let converted = ticks.into_iter().zip(records);
    for (place, (ticks, record)) in output.chunks_exact_mut(RECORD).zip(converted) {
        let ticks = u32::try_from(ticks).expect("no date is above the limit");
        let action = record.action;
        place.copy_from_slice(&Record { ticks, action }.bytes());
    }
    Ok(())
}

/// How many of a log's whole records, from the first on, are without fault.
pub fn sound(format: Format, log: &[u8]) -> usize {
    let dates = dates(format, &records(log));
    let fault = first_fault(&dates).and_then(Refused::place);
    fault.unwrap_or(dates.len())
}

/// The whole records of a log.
pub fn records(log: &[u8]) -> Vec<Record> {
    let whole = log.chunks_exact(RECORD);
    let read = |bytes: &[u8]| Record {
        ticks: u32::from_le_bytes([bytes[0], bytes[1], bytes[2], bytes[3]]),
        action: bytes[4],
    };
    whole.map(read).collect()
}

/// The dates of the records, however late.
fn dates(format: Format, records: &[Record]) -> Vec<u64> {
    let ticks = records.iter().map(|record| u64::from(record.ticks));
    match format {
        Format::Dates => ticks.collect(),
        Format::Gaps => ticks.scan(0, pass).collect(),
    }
}

/// Lets a gap pass and gives the date after it.
fn pass(date: &mut u64, gap: u64) -> Option<u64> {
    *date = date.saturating_add(gap);
    Some(*date)
}

/// The first fault among dates.
fn first_fault(dates: &[u64]) -> Option<Refused> {
    let mut before = 0;
    for (place, &date) in dates.iter().enumerate() {
        if date > u64::from(LAST_DATE) {
            return Some(Refused::Late(place));
        }
        if date < before {
            return Some(Refused::Falling(place));
        }
        before = date;
    }
    None
}

/// What each date is above the one before it, the first above 0.
fn differences(dates: &[u64]) -> Vec<u64> {
    let before = [0].into_iter().chain(dates.iter().copied());
    let pairs = dates.iter().zip(before);
    pairs.map(|(date, before)| date - before).collect()
}
