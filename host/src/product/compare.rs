//! Compares a program that joins sheets with this library over random pairs, and
//! its joined sheets with both sheets over random timed words.

use super::outcome::{reason, Outcome};
use super::words::{taken, words, Taken};
use super::{clock_count, Case, Joiner, Kind};
use crate::random::Random;
use crate::refusal::Refusal;
use crate::sheet::{self, LONGEST, MAX_CLOCKS};
use crate::tally::Tally;
use std::path::PathBuf;
use std::{env, fmt, fs, process};

/// The first difference.
#[derive(Debug)]
pub struct Difference {
    pub kind: &'static str,
    pub seed: u64,
    /// What differs.
    pub problem: String,
    lengths: [usize; 2],
    expected: Outcome,
    found: Outcome,
    /// Where the sheets were written, if they could be.
    pub sheets: Option<[PathBuf; 2]>,
}

impl fmt::Display for Difference {
    fn fmt(&self, out: &mut fmt::Formatter<'_>) -> fmt::Result {
        let [first, second] = self.lengths;
        let lent = self.expected.lent.output.len();
        writeln!(out, "difference: kind {}, seed {}", self.kind, self.seed)?;
        writeln!(
            out,
            "sheets of {first} and {second} bytes with an output of {lent} bytes"
        )?;
        writeln!(out, "{}", self.problem)?;
        writeln!(out, "  expected: {}", self.expected)?;
        writeln!(out, "  found:    {}", self.found)?;
        match &self.sheets {
            Some([first, second]) => {
                writeln!(out, "first sheet: {}", first.display())?;
                write!(out, "second sheet: {}", second.display())
            }
            None => write!(out, "the sheets could not be written"),
        }
    }
}

/// What was compared without a difference.
#[derive(Debug, Default)]
pub struct Summary {
    pub pairs: u64,
    pub words: u64,
    tally: Tally,
}

/// What the sheets are called.
const FIRST: &str = "the first sheet";
const SECOND: &str = "the second sheet";

/// The names under which answers count that are no reasons of a sheet alone.
const JOINED: &str = "joined";
const LARGEST: &str = "joined, as long as the output";
const CLOCKS: &str = "I-13, clocks";
const LOCATIONS: &str = "I-13, locations";

/// All names, in the order in which they are shown.
fn names() -> Vec<String> {
    let own = |which: &'static str| {
        let reasons = (-6..=-1).rev().filter_map(reason);
        reasons.map(move |reason| own_name(reason, which))
    };
    let answers = ["I-9", "I-12", CLOCKS, LOCATIONS, "I-14"].map(String::from);
    let mut names = vec![JOINED.into(), LARGEST.into()];
    names.extend(own(FIRST).chain(own(SECOND)).chain(answers));
    names.extend(Taken::ALL.map(|taken| taken.name().into()));
    names
}

/// The name of a reason against one sheet alone.
fn own_name(reason: Refusal, which: &str) -> String {
    format!("{reason} of {which}")
}

impl Summary {
    fn add(&mut self, case: &Case, outcome: &Outcome) {
        self.pairs += 1;
        self.tally.note(&answer_name(case, outcome));
        if outcome.result == LONGEST as i32 {
            self.tally.note(LARGEST);
        }
    }

    /// The names with how often they came.
    fn all(&self) -> impl Iterator<Item = (String, u64)> + '_ {
        names().into_iter().map(|name| {
            let count = self.count(&name);
            (name, count)
        })
    }

    /// How often something came, by the name under which it is shown.
    pub fn count(&self, name: &str) -> u64 {
        self.tally.count(name)
    }

    /// What never came.
    pub fn missing(&self) -> Vec<String> {
        let missing = self.all().filter(|(_, count)| *count == 0);
        missing.map(|(name, _)| name).collect()
    }
}

impl fmt::Display for Summary {
    fn fmt(&self, out: &mut fmt::Formatter<'_>) -> fmt::Result {
        let (pairs, words) = (self.pairs, self.words);
        writeln!(out, "no difference: {pairs} pairs, {words} words")?;
        for (name, count) in self.all() {
            writeln!(out, "{count:>10}  {name}")?;
        }
        Ok(())
    }
}

/// The name of an answer: whose reason it is, and which of its conditions holds.
fn answer_name(case: &Case, outcome: &Outcome) -> String {
    let [first, second] = case.sheets.each_ref().map(|bytes| sheet::read(bytes));
    match (reason(outcome.result), first, second) {
        (None, _, _) => JOINED.into(),
        (Some(Refusal::I9), _, _) => Refusal::I9.name().into(),
        (Some(reason), Err(_), _) => own_name(reason, FIRST),
        (Some(reason), _, Err(_)) => own_name(reason, SECOND),
        (Some(Refusal::I13), Ok(first), Ok(second)) => {
            let clocks = clock_count(&first, &second) > MAX_CLOCKS;
            if clocks { CLOCKS } else { LOCATIONS }.into()
        }
        (Some(reason), _, _) => reason.name().into(),
    }
}

/// Has each of the kinds' pairs joined for each seed by a program and by this
/// library.
pub fn compare<'a>(
    joiner: &impl Joiner,
    kinds: impl IntoIterator<Item = &'a Kind>,
    first_seed: u64,
    seeds: u64,
) -> Result<Summary, Box<Difference>> {
    let mut summary = Summary::default();
    for kind in kinds {
        for step in 0..seeds {
            let seed = first_seed.wrapping_add(step);
            let case = kind.case(seed);
            let expected = Outcome::expected(&case);
            let found = Outcome::of(joiner, &case);
            let mut random = Random::named(&format!("words of {}", kind.name), seed);
            let problem = expected.problem(&found);
            let problem = problem.or_else(|| {
                let joined = found.joined()?;
                compare_words(&mut random, &case, joined, &mut summary).err()
            });
            if let Some(problem) = problem {
                return Err(tell(kind, seed, &case, problem, [expected, found]));
            }
            summary.add(&case, &expected);
        }
    }
    Ok(summary)
}

/// Requires that a joined sheet takes random words exactly when both sheets do.
fn compare_words(
    random: &mut Random,
    case: &Case,
    joined: &[u8],
    summary: &mut Summary,
) -> Result<(), String> {
    let load = |bytes: &[u8], name: &str| {
        let refused = |refusal| format!("{name} is refused with {refusal}");
        sheet::read(bytes).map_err(refused)
    };
    let [first, second] = &case.sheets;
    let sheets = [load(first, FIRST)?, load(second, SECOND)?];
    let joined = load(joined, "the joined sheet")?;
    for word in words(random, &sheets, &joined) {
        let taken = taken(&sheets, &joined, &word)?;
        summary.words += 1;
        summary.tally.note(taken.name());
    }
    Ok(())
}

/// Writes the sheets to files and says where they came from.
fn tell(
    kind: &Kind,
    seed: u64,
    case: &Case,
    problem: String,
    [expected, found]: [Outcome; 2],
) -> Box<Difference> {
    let (kind, id) = (kind.name, process::id());
    let path = |place: &str| env::temp_dir().join(format!("{place}-{kind}-{seed}-{id}.bin"));
    let paths = [path("first-sheet"), path("second-sheet")];
    let mut files = paths.iter().zip(&case.sheets);
    let written = files.all(|(path, sheet)| fs::write(path, sheet).is_ok());
    Box::new(Difference {
        kind,
        seed,
        problem,
        lengths: case.sheets.each_ref().map(Vec::len),
        expected,
        found,
        sheets: written.then_some(paths),
    })
}
