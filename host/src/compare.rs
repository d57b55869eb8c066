//! Compares a desk program with this library over random inputs, and over some
//! that use up the numbers.

use crate::bounds;
use crate::desk;
use crate::generate::Kind;
use crate::loading::{self, Loading};
use crate::monitor::Monitor;
use crate::pieces::{cuts, feed};
use crate::tally::Tally;
use std::io;
use std::path::{Path, PathBuf};
use std::process::{Command, Output, Stdio};
use std::{env, fmt, fs, process, thread};

/// What was compared without a difference.
#[derive(Debug, Default)]
pub struct Summary {
    pub random: Part,
    /// The inputs that use up the numbers.
    pub used_up: Part,
}

/// Some of the inputs, and their lines.
#[derive(Debug, Default)]
pub struct Part {
    pub inputs: u64,
    pub tally: Tally,
    /// How many runs ended with an exit status other than 0.
    pub unsuccessful: u64,
}

/// Why a comparison stopped.
#[derive(Debug)]
pub enum Stop {
    /// The program could not be run.
    NotRun(io::Error),
    /// The outputs differ.
    Difference(Box<Difference>),
    /// The lines of the library do not show what an input is there for.
    Pointless { kind: &'static str, missing: String },
}

/// The first difference.
#[derive(Debug)]
pub struct Difference {
    pub kind: &'static str,
    pub seed: u64,
    /// Number of the first line that differs, from 1.
    pub line: usize,
    pub expected: String,
    pub found: String,
    /// How the program ended.
    pub status: String,
    /// Where the input was written, if it could be.
    pub input: Option<PathBuf>,
    /// Where the input was cut into pieces.
    pub cuts: Vec<usize>,
}

/// An input and where it is cut into pieces.
struct Case<'a> {
    loading: Loading,
    kind: &'a Kind,
    seed: u64,
    input: Vec<u8>,
    cuts: Vec<usize>,
}

impl<'a> Case<'a> {
    fn new(loading: Loading, kind: &'a Kind, seed: u64) -> Self {
        let input = kind.input_as(loading, seed);
        let cuts = cuts(loading, kind, seed, &input);
        Case {
            loading,
            kind,
            seed,
            input,
            cuts,
        }
    }
}

/// Runs each of the kinds for each seed through the program and the library. The
/// inputs begin as the program wants it.
pub fn compare<'a>(
    program: &Path,
    loading: Loading,
    kinds: impl IntoIterator<Item = &'a Kind>,
    first_seed: u64,
    seeds: u64,
) -> Result<Summary, Stop> {
    let mut summary = Summary::default();
    for kind in kinds {
        for seed in kind.seeds(first_seed, seeds) {
            let case = Case::new(loading, kind, seed);
            compare_one(program, case, &mut summary)?;
        }
    }
    Ok(summary)
}

fn compare_one(program: &Path, case: Case, summary: &mut Summary) -> Result<(), Stop> {
    let kind = case.kind;
    let expected = desk::run_as::<Monitor>(case.loading, &case.input);
    if let Some(look) = kind.look {
        look(&case.input, &expected).map_err(|missing| Stop::Pointless {
            kind: kind.name,
            missing,
        })?;
    }
    let found = run(program, &case.input, &case.cuts).map_err(Stop::NotRun)?;
    // No exit status means that the program was broken off.
    if found.stdout != expected.as_bytes() || found.status.code().is_none() {
        let difference = difference(case, &expected, &found);
        return Err(Stop::Difference(Box::new(difference)));
    }
    let part = match kind.look {
        Some(_) => &mut summary.used_up,
        None => &mut summary.random,
    };
    part.inputs += 1;
    part.tally.add(&expected);
    bounds::count(&mut part.tally, case.loading, &case.input);
    if case.loading == Loading::AtDate {
        loading::count(&mut part.tally, &case.input, &expected);
    }
    part.unsuccessful += u64::from(!found.status.success());
    Ok(())
}

/// Runs a program on an input, cut into pieces, and gives what it prints.
pub fn run(program: &Path, input: &[u8], cuts: &[usize]) -> io::Result<Output> {
    let mut child = Command::new(program)
        .stdin(Stdio::piped())
        .stdout(Stdio::piped())
        .spawn()?;
    let stdin = child.stdin.take();
    thread::scope(|scope| {
        scope.spawn(move || {
            // A program may stop reading early; its output tells.
            if let Some(stdin) = stdin {
                let _ = feed(stdin, input, cuts);
            }
        });
        child.wait_with_output()
    })
}

fn difference(case: Case, expected: &str, found: &Output) -> Difference {
    let (kind, seed) = (case.kind.name, case.seed);
    let program = case.loading.program();
    let text = String::from_utf8_lossy(&found.stdout);
    let (line, expected, found_line) = first_difference(expected, &text);
    let name = format!("{program}-input-{kind}-{seed}-{}.bin", process::id());
    let path = env::temp_dir().join(name);
    Difference {
        kind,
        seed,
        line,
        expected,
        found: found_line,
        status: found.status.to_string(),
        input: fs::write(&path, case.input).is_ok().then_some(path),
        cuts: case.cuts,
    }
}

/// The number of the first line that differs, and that line of both outputs.
fn first_difference(expected: &str, found: &str) -> (usize, String, String) {
    let mut ours = expected.split_inclusive('\n');
    let mut theirs = found.split_inclusive('\n');
    let mut number = 1;
    loop {
        let pair = (ours.next(), theirs.next());
        if pair.0 != pair.1 || pair.0.is_none() {
            return (number, show(pair.0), show(pair.1));
        }
        number += 1;
    }
}

/// A line as it stands, its line end made visible, or that there is none.
fn show(line: Option<&str>) -> String {
    line.map_or("(no line)".into(), |line| format!("{line:?}"))
}

impl fmt::Display for Difference {
    fn fmt(&self, out: &mut fmt::Formatter<'_>) -> fmt::Result {
        writeln!(out, "difference: kind {}, seed {}", self.kind, self.seed)?;
        writeln!(out, "first line that differs: {}", self.line)?;
        writeln!(out, "  expected: {}", self.expected)?;
        writeln!(out, "  found:    {}", self.found)?;
        writeln!(out, "the program ended with {}", self.status)?;
        if !self.cuts.is_empty() {
            writeln!(out, "the input had pauses after bytes {:?}", self.cuts)?;
        }
        match &self.input {
            Some(path) => write!(out, "input: {}", path.display()),
            None => write!(out, "the input could not be written"),
        }
    }
}

impl Part {
    /// Tells how many inputs, which are called so, and how often each answer came.
    fn show(&self, inputs: &str, out: &mut fmt::Formatter<'_>) -> fmt::Result {
        let (count, lines) = (self.inputs, self.tally.lines());
        writeln!(out, "no difference: {count} {inputs}, {lines} lines")?;
        for (name, count) in self.tally.all() {
            writeln!(out, "{count:>10}  {name}")?;
        }
        if self.unsuccessful > 0 {
            writeln!(
                out,
                "{:>10}  runs with another exit status than 0",
                self.unsuccessful
            )?;
        }
        Ok(())
    }
}

impl fmt::Display for Summary {
    fn fmt(&self, out: &mut fmt::Formatter<'_>) -> fmt::Result {
        let used_up = self.used_up.inputs > 0;
        if self.random.inputs > 0 || !used_up {
            self.random.show("inputs", out)?;
        }
        if used_up {
            self.used_up.show("inputs that use up the numbers", out)?;
        }
        Ok(())
    }
}
