//! What a program that joins sheets does with two sheets and a lent output.

use super::{join, Case};
use crate::lent::{self, Lent};
use crate::refusal::Refusal;
use crate::sheet;
use std::fmt;
use std::hint::black_box;

/// A program that joins sheets.
pub trait Joiner {
    /// Joins two sheets: the length of the joined one, or minus the number after
    /// "I-".
    fn join(&self, first: &[u8], second: &[u8], output: &mut [u8]) -> i32;
    /// What a sheet is refused for: 0 for nothing, or minus the number after "I-".
    fn check(&self, sheet: &[u8]) -> i32;
}

/// The reasons for which two sheets are not joined.
const REASONS: [Refusal; 10] = [
    Refusal::I1,
    Refusal::I2,
    Refusal::I3,
    Refusal::I4,
    Refusal::I5,
    Refusal::I6,
    Refusal::I9,
    Refusal::I12,
    Refusal::I13,
    Refusal::I14,
];

/// The reason that a program's result stands for.
pub fn reason(result: i32) -> Option<Refusal> {
    Refusal::of_result(&REASONS, result)
}

/// The result that stands for a reason.
fn result(reason: Refusal) -> i32 {
    let result = reason.result();
    result.expect("sheets are refused for their bytes alone")
}

/// What a program did with a case.
#[derive(Clone, Debug, PartialEq, Eq)]
pub(super) struct Outcome {
    pub result: i32,
    /// What it says of each sheet alone.
    pub checks: [i32; 2],
    pub lent: Lent,
    /// The sheets after the calls.
    sheets: [Vec<u8>; 2],
}

impl Outcome {
    /// What a program does.
    pub fn of(joiner: &impl Joiner, case: &Case) -> Self {
        let sheets = case.sheets.clone();
        let [first, second] = &sheets;
        let (result, lent) = lent::lend(&case.output, |output| {
            joiner.join(black_box(first), black_box(second), output)
        });
        let checks = [first, second].map(|sheet| joiner.check(black_box(sheet)));
        Outcome {
            result,
            checks,
            lent,
            sheets,
        }
    }

    /// What this library does; it writes nothing but the output.
    pub fn expected(case: &Case) -> Self {
        let [first, second] = &case.sheets;
        let mut output = case.output.clone();
        let joined = join(first, second, &mut output);
        let check = |bytes| sheet::read(bytes).map_or_else(result, |_| 0);
        Outcome {
            result: joined.map_or_else(result, |length| length as i32),
            checks: [check(first), check(second)],
            lent: Lent::of(output),
            sheets: case.sheets.clone(),
        }
    }

    /// The joined sheet, if there is one.
    pub fn joined(&self) -> Option<&[u8]> {
        let length = usize::try_from(self.result).ok()?;
        self.lent.output.get(..length)
    }

    /// The first thing in which another outcome differs from this one.
    pub fn problem(&self, other: &Outcome) -> Option<String> {
        if self.result != other.result {
            return Some("the results differ".into());
        }
        let sheet = |place: usize| {
            let name = ["the first sheet", "the second sheet"][place];
            let (expected, found) = (self.checks[place], other.checks[place]);
            let check = (expected != found)
                .then(|| format!("the check of {name} says {found}, not {expected}"));
            check.or_else(|| lent::differing(name, &self.sheets[place], &other.sheets[place]))
        };
        let sheets = sheet(0).or_else(|| sheet(1));
        sheets.or_else(|| self.lent.problem(&other.lent))
    }
}

impl fmt::Display for Outcome {
    fn fmt(&self, out: &mut fmt::Formatter<'_>) -> fmt::Result {
        match (reason(self.result), self.joined()) {
            (Some(reason), _) => write!(out, "refused with {reason}"),
            (None, Some(joined)) => {
                let bytes: Vec<String> = joined.iter().map(u8::to_string).collect();
                let (length, bytes) = (joined.len(), bytes.join(" "));
                write!(out, "joined, {length} bytes: {bytes}")
            }
            (None, None) => write!(out, "result {}", self.result),
        }
    }
}
