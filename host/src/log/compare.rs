//! Compares a converter of logs with this library's over random logs.

use super::outcome::{reason, Converter, Outcome};
use super::{Case, Format, Kind, RECORD};
use crate::lent::Lent;
use crate::refusal::Refusal;
use std::collections::BTreeMap;
use std::path::PathBuf;
use std::{env, fmt, fs, process};

/// The first difference.
#[derive(Debug)]
pub struct Difference {
    pub kind: &'static str,
    pub seed: u64,
    pub from: Format,
    /// What differs.
    pub problem: String,
    expected: Outcome,
    found: Outcome,
    /// Where the log was written, if it could be.
    pub log: Option<PathBuf>,
}

impl fmt::Display for Difference {
    fn fmt(&self, out: &mut fmt::Formatter<'_>) -> fmt::Result {
        let (from, lent) = (self.from, self.expected.lent.output.len());
        writeln!(out, "difference: kind {}, seed {}", self.kind, self.seed)?;
        writeln!(out, "a log in {from} with an output of {lent} bytes")?;
        writeln!(out, "{}", self.problem)?;
        writeln!(out, "  expected: {}", self.expected)?;
        writeln!(out, "  found:    {}", self.found)?;
        match &self.log {
            Some(path) => write!(out, "log: {}", path.display()),
            None => write!(out, "the log could not be written"),
        }
    }
}

/// What was compared without a difference.
#[derive(Debug, Default)]
pub struct Summary {
    pub logs: u64,
    pub records: u64,
    /// How often each result came for logs of each format.
    counts: BTreeMap<(Format, i32), u64>,
}

impl Summary {
    fn add(&mut self, case: &Case, result: i32) {
        self.logs += 1;
        self.records += (case.log.len() / RECORD) as u64;
        *self.counts.entry((case.from, result)).or_default() += 1;
    }

    /// The answers that a log can get, with how often they came.
    fn all(&self) -> impl Iterator<Item = (String, u64)> + '_ {
        let results = |from| [0, -9, -10, -11].map(|result| (from, result));
        let answers = [Format::Dates, Format::Gaps].into_iter().flat_map(results);
        let possible = answers.filter(|answer| *answer != (Format::Gaps, -11));
        possible.map(|(from, result)| {
            let count = self.counts.get(&(from, result)).copied().unwrap_or(0);
            let answer = reason(result).map_or("converted", Refusal::name);
            (format!("{from} to {}: {answer}", from.other()), count)
        })
    }

    /// How often an answer came, by the name under which it is shown.
    pub fn count(&self, name: &str) -> u64 {
        let counts = self.all().filter(|(found, _)| found == name);
        counts.map(|(_, count)| count).sum()
    }

    /// The answers that never came.
    pub fn missing(&self) -> Vec<String> {
        let missing = self.all().filter(|(_, count)| *count == 0);
        missing.map(|(name, _)| name).collect()
    }
}

impl fmt::Display for Summary {
    fn fmt(&self, out: &mut fmt::Formatter<'_>) -> fmt::Result {
        let (logs, records) = (self.logs, self.records);
        writeln!(out, "no difference: {logs} logs, {records} records")?;
        for (name, count) in self.all() {
            writeln!(out, "{count:>10}  {name}")?;
        }
        Ok(())
    }
}

/// Has each of the kinds' logs converted for each seed by a converter and by
/// this library.
pub fn compare<'a>(
    converter: &impl Converter,
    kinds: impl IntoIterator<Item = &'a Kind>,
    first_seed: u64,
    seeds: u64,
) -> Result<Summary, Box<Difference>> {
    let mut summary = Summary::default();
    for kind in kinds {
        for step in 0..seeds {
            let seed = first_seed.wrapping_add(step);
            let case = kind.case(seed);
            let result = compare_one(converter, &case);
            let result = result.map_err(|differing| differing.tell(kind, seed, &case))?;
            summary.add(&case, result);
        }
    }
    Ok(summary)
}

/// Two outcomes, and in what they differ.
struct Differing {
    problem: String,
    expected: Outcome,
    found: Outcome,
}

/// Compares the outcomes of a case and, if it is converted, the way back.
fn compare_one(converter: &impl Converter, case: &Case) -> Result<i32, Box<Differing>> {
    let expected = Outcome::expected(case);
    let found = Outcome::of(converter, case);
    require(&expected, found, "")?;
    if expected.result == 0 {
        let back = Case {
            from: case.from.other(),
            log: expected.lent.output,
            output: case.output.clone(),
        };
        let there = Outcome {
            lent: Lent::of(case.log.clone()),
            log: back.log.clone(),
            ..expected
        };
        require(&there, Outcome::of(converter, &back), "on the way back, ")?;
    }
    Ok(expected.result)
}

/// Requires that the outcomes are the same.
fn require(expected: &Outcome, found: Outcome, way: &str) -> Result<(), Box<Differing>> {
    match expected.problem(&found) {
        None => Ok(()),
        Some(problem) => Err(Box::new(Differing {
            problem: format!("{way}{problem}"),
            expected: expected.clone(),
            found,
        })),
    }
}

impl Differing {
    /// Writes the log to a file and says where it came from.
    fn tell(self, kind: &Kind, seed: u64, case: &Case) -> Box<Difference> {
        let (kind, id) = (kind.name, process::id());
        let name = format!("log-in-{}-{kind}-{seed}-{id}.bin", case.from);
        let path = env::temp_dir().join(name);
        Box::new(Difference {
            kind,
            seed,
            from: case.from,
            problem: self.problem,
            expected: self.expected,
            found: self.found,
            log: fs::write(&path, &case.log).is_ok().then_some(path),
        })
    }
}
