//! What a converter of logs does with a log and a lent output.

use super::{convert, sound, Case, Format, RECORD};
use crate::lent::{self, Lent};
use crate::refusal::Refusal;
use std::fmt;
use std::hint::black_box;

/// A program that converts logs.
pub trait Converter {
    /// Converts a log of a format to the other one: 0, or minus the number
    /// after "I-".
    fn convert(&self, from: Format, log: &[u8], output: &mut [u8]) -> i32;
    /// How many of a log's whole records, from the first on, are without fault.
    fn sound(&self, format: Format, log: &[u8]) -> usize;
}

/// The reasons for which a log is refused.
const REASONS: [Refusal; 3] = [Refusal::I9, Refusal::I10, Refusal::I11];

/// The reason that a converter's number stands for.
pub fn reason(number: i32) -> Option<Refusal> {
    Refusal::of_result(&REASONS, number)
}

/// The number that stands for a reason.
fn number(reason: Refusal) -> i32 {
    let result = reason.result();
    result.expect("a log is refused for its bytes alone")
}

/// What a converter did with a case.
#[derive(Clone, Debug, PartialEq, Eq)]
pub(super) struct Outcome {
    pub result: i32,
    pub sound: usize,
    pub lent: Lent,
    /// The log after the call.
    pub log: Vec<u8>,
}

impl Outcome {
    /// What a converter does.
    pub fn of(converter: &impl Converter, case: &Case) -> Self {
        let log = case.log.clone();
        let (result, lent) = lent::lend(&case.output, |output| {
            converter.convert(case.from, black_box(&log), output)
        });
        let sound = converter.sound(case.from, black_box(&log));
        Outcome {
            result,
            sound,
            lent,
            log,
        }
    }

    /// What this library does; it writes nothing but the output.
    pub fn expected(case: &Case) -> Self {
        let mut output = case.output.clone();
        let result = convert(case.from, &case.log, &mut output);
        Outcome {
            result: result.map_or_else(|refused| number(refused.reason()), |()| 0),
            sound: sound(case.from, &case.log),
            lent: Lent::of(output),
            log: case.log.clone(),
        }
    }

    /// The first thing in which another outcome differs from this one.
    pub fn problem(&self, other: &Outcome) -> Option<String> {
        if self.result != other.result {
            return Some("the results differ".into());
        }
        if self.sound != other.sound {
            return Some("the places of the first fault differ".into());
        }
        let log = lent::differing("the log", &self.log, &other.log);
        log.or_else(|| self.lent.problem(&other.lent))
    }
}

impl fmt::Display for Outcome {
    fn fmt(&self, out: &mut fmt::Formatter<'_>) -> fmt::Result {
        let (sound, all) = (self.sound, self.log.len() / RECORD);
        match (self.result, reason(self.result)) {
            (0, _) => write!(out, "converted")?,
            (_, Some(reason)) => write!(out, "refused with {reason}")?,
            (result, None) => write!(out, "result {result}")?,
        }
        write!(out, "; without fault: the first {sound} of {all} records")
    }
}
