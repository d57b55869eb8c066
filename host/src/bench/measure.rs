//! Runs three programs on the same inputs by turns and tells what they take.

use super::Input;
use crate::random::Random;
use std::fs::{self, File};
use std::io::{self, ErrorKind};
use std::path::{Path, PathBuf};
use std::process::{Command, ExitStatus, Stdio};
use std::time::{Duration, Instant};
use std::{env, fmt, process};

/// The program to be measured, and those it is measured against.
#[derive(Clone, Debug)]
pub struct Programs {
    pub program: PathBuf,
    pub reference: PathBuf,
    pub fast: PathBuf,
}

/// Why a measurement stopped.
#[derive(Debug)]
pub enum Stop {
    /// A program could not be run.
    NotRun(PathBuf, io::Error),
    /// A file of the benchmark could not be read or written.
    Files(io::Error),
    /// The outputs differ.
    Difference(Box<Difference>),
}

/// The first line that differs.
#[derive(Debug)]
pub struct Difference {
    /// The kind of the input, if it is known.
    pub kind: &'static str,
    /// The program that printed it.
    pub program: PathBuf,
    /// Where the input was written, if it could be.
    pub input: Option<PathBuf>,
    /// Number of the line, from 1.
    pub line: usize,
    pub expected: String,
    pub found: String,
    /// How that program ended.
    pub status: String,
}

/// A figure for each program; one that is not known is no number.
#[derive(Clone, Copy, Debug, Default, PartialEq)]
pub struct Figures {
    pub program: f64,
    pub reference: f64,
    pub fast: f64,
}

/// What some inputs took.
#[derive(Clone, Copy, Debug, Default, PartialEq)]
pub struct Measured {
    /// Calls, or loads, that were counted.
    pub count: usize,
    /// Seconds for one of these, what the base takes subtracted.
    pub each: Figures,
    /// Seconds for all bases.
    pub base: Figures,
}

/// A folder for inputs and outputs that goes when it is no longer used.
#[derive(Debug)]
pub struct Folder {
    path: PathBuf,
}

impl Folder {
    /// Makes a folder among the temporary files.
    pub fn new() -> Result<Self, Stop> {
        let mut number = 0;
        loop {
            let name = format!("bench-{}-{number}", process::id());
            let path = env::temp_dir().join(name);
            match fs::create_dir(&path) {
                Ok(()) => return Ok(Folder { path }),
                Err(error) if error.kind() == ErrorKind::AlreadyExists => number += 1,
                Err(error) => return Err(Stop::Files(error)),
            }
        }
    }

    /// The path of a file in the folder.
    pub fn file(&self, name: &str) -> PathBuf {
        self.path.join(name)
    }

    /// Writes an input and gives its path.
    pub fn write(&self, name: &str, input: &[u8]) -> Result<PathBuf, Stop> {
        let path = self.file(name);
        fs::write(&path, input).map_err(Stop::Files)?;
        Ok(path)
    }
}

impl Drop for Folder {
    fn drop(&mut self) {
        // A folder left behind does no harm.
        let _ = fs::remove_dir_all(&self.path);
    }
}

/// One run of a program.
struct Run {
    time: Duration,
    output: Vec<u8>,
    status: ExitStatus,
}

impl Programs {
    /// Measures inputs, each so many times by turns. The reference is given at
    /// most `few` calls of an input.
    pub fn measure(
        &self,
        folder: &Folder,
        inputs: &[Input],
        rounds: usize,
        few: usize,
    ) -> Result<Measured, Stop> {
        let (mut count, mut part) = (0, 0);
        let (mut counted, mut base) = (Figures::default(), Figures::default());
        for input in inputs {
            let [of_whole, of_base] = self.times(folder, input, rounds, few)?;
            count += input.count;
            part += input.count.min(few);
            counted = counted.with(of_whole, |sum, whole| sum + whole);
            counted = counted.with(of_base, |sum, base| sum - base);
            base = base.with(of_base, |sum, base| sum + base);
        }
        let counts = Figures {
            program: count as f64,
            reference: part as f64,
            fast: count as f64,
        };
        Ok(Measured {
            count,
            each: counted.with(counts, |time, count| time / count),
            base,
        })
    }

    /// What an input and its base take. In each round all programs are run on
    /// both, in a new order, as what ran before has an effect.
    fn times(
        &self,
        folder: &Folder,
        input: &Input,
        rounds: usize,
        few: usize,
    ) -> Result<[Figures; 2], Stop> {
        let base = folder.write("base", &input.base)?;
        let whole = folder.write("whole", &input.whole)?;
        let part = match input.part(few) {
            part if part.len() < input.whole.len() => folder.write("part", part)?,
            _ => whole.clone(),
        };
        let inputs = [[&*whole, &*part, &*whole], [&*base; 3]];
        let mut random = Random::new(rounds as u64);
        let mut order = [0, 1, 2, 3, 4, 5];
        let mut times: [Vec<f64>; 6] = Default::default();
        for _ in 0..rounds {
            random.shuffle(&mut order);
            let runs = self.run_all(folder, &inputs, order)?;
            for (times, run) in times.iter_mut().zip(runs.as_flattened()) {
                times.push(run.time.as_secs_f64());
            }
            for (runs, inputs) in runs.into_iter().zip(&inputs) {
                self.compare(runs, inputs)?;
            }
        }
        let [a, b, c, d, e, f] = times.map(typical);
        Ok([Figures::new(a, b, c), Figures::new(d, e, f)])
    }

    /// Runs the program, the reference and the fast one, each on its two inputs.
    fn run_all(
        &self,
        folder: &Folder,
        inputs: &[[&Path; 3]; 2],
        order: [usize; 6],
    ) -> Result<[[Run; 3]; 2], Stop> {
        let programs = [&self.program, &self.reference, &self.fast];
        let mut runs = [const { [const { None }; 3] }; 2];
        for task in order {
            let (input, program) = (task / 3, task % 3);
            runs[input][program] = Some(run(programs[program], inputs[input][program], folder)?);
        }
        Ok(runs.map(|runs| runs.map(|run| run.expect("every task was run"))))
    }

    /// Compares what the programs have printed, the reference for a part of the
    /// others' input.
    fn compare(&self, runs: [Run; 3], inputs: &[&Path; 3]) -> Result<(), Stop> {
        let [program, mut reference, fast] = runs;
        let [input, part, _] = inputs;
        if input != part {
            // Beyond its part there is nothing to compare with.
            let more = fast.output.get(reference.output.len()..);
            reference.output.extend_from_slice(more.unwrap_or(&[]));
        }
        for (path, found) in [(&self.fast, &fast), (&self.program, &program)] {
            // No exit status means that the program was broken off.
            if found.output != reference.output || found.status.code().is_none() {
                let mut difference = difference(&reference, found);
                difference.program = path.clone();
                difference.input = keep(input);
                return Err(Stop::Difference(Box::new(difference)));
            }
        }
        Ok(())
    }
}

/// The mean of the faster half of some times without the fastest tenth: what
/// else the machine does makes runs slower, and a lucky one says little.
pub fn typical(mut times: Vec<f64>) -> f64 {
    times.sort_by(f64::total_cmp);
    let typical = &times[times.len() / 10..times.len().div_ceil(2)];
    typical.iter().sum::<f64>() / typical.len() as f64
}

impl Figures {
    fn new(program: f64, reference: f64, fast: f64) -> Self {
        Figures {
            program,
            reference,
            fast,
        }
    }

    /// The figures, each joined with another one.
    fn with(self, other: Figures, join: fn(f64, f64) -> f64) -> Self {
        Figures {
            program: join(self.program, other.program),
            reference: join(self.reference, other.reference),
            fast: join(self.fast, other.fast),
        }
    }

    /// The figures, each made another one.
    pub fn map(self, make: impl Fn(f64) -> f64) -> Self {
        Figures {
            program: make(self.program),
            reference: make(self.reference),
            fast: make(self.fast),
        }
    }

    /// How many times as much the reference needs, if both figures say anything.
    pub fn to_reference(&self) -> Option<f64> {
        ratio(self.reference, self.program)
    }

    /// How many times as much the program written for speed needs.
    pub fn to_fast(&self) -> Option<f64> {
        ratio(self.fast, self.program)
    }
}

fn ratio(other: f64, own: f64) -> Option<f64> {
    (other > 0.0 && own > 0.0).then(|| other / own)
}

/// Runs a program from file to file.
fn run(program: &Path, input: &Path, folder: &Folder) -> Result<Run, Stop> {
    let path = folder.file("output");
    let stdin = File::open(input).map_err(Stop::Files)?;
    let stdout = File::create(&path).map_err(Stop::Files)?;
    let mut command = Command::new(program);
    command
        .stdin(Stdio::from(stdin))
        .stdout(Stdio::from(stdout));
    let start = Instant::now();
    let status = command.status();
    let time = start.elapsed();
    Ok(Run {
        time,
        status: status.map_err(|error| Stop::NotRun(program.to_path_buf(), error))?,
        output: fs::read(&path).map_err(Stop::Files)?,
    })
}

fn difference(expected: &Run, found: &Run) -> Difference {
    let mut ours = expected.output.split_inclusive(|byte| *byte == b'\n');
    let mut theirs = found.output.split_inclusive(|byte| *byte == b'\n');
    let mut line = 1;
    loop {
        let pair = (ours.next(), theirs.next());
        if pair.0 != pair.1 || pair.0.is_none() {
            return Difference {
                kind: "",
                program: PathBuf::new(),
                input: None,
                line,
                expected: show(pair.0),
                found: show(pair.1),
                status: found.status.to_string(),
            };
        }
        line += 1;
    }
}

/// Copies an input to where it outlives its folder.
fn keep(input: &Path) -> Option<PathBuf> {
    let name = format!("desk-input-bench-{}.bin", process::id());
    let path = env::temp_dir().join(name);
    fs::copy(input, &path).is_ok().then_some(path)
}

/// A line as it stands, its line end made visible, or that there is none.
fn show(line: Option<&[u8]>) -> String {
    let text = line.map(String::from_utf8_lossy);
    text.map_or("(no line)".into(), |text| format!("{text:?}"))
}

impl Stop {
    /// Tells with which kind of inputs it happened.
    pub fn at(mut self, kind: &'static str) -> Self {
        if let Stop::Difference(difference) = &mut self {
            difference.kind = kind;
        }
        self
    }
}

impl fmt::Display for Stop {
    fn fmt(&self, out: &mut fmt::Formatter<'_>) -> fmt::Result {
        match self {
            Stop::NotRun(program, error) => {
                write!(
                    out,
                    "{:?} cannot be run: {error}",
                    program.to_string_lossy()
                )
            }
            Stop::Files(error) => write!(out, "a file cannot be read or written: {error}"),
            Stop::Difference(difference) => difference.fmt(out),
        }
    }
}

impl fmt::Display for Difference {
    fn fmt(&self, out: &mut fmt::Formatter<'_>) -> fmt::Result {
        writeln!(out, "difference: {}, line {}", self.kind, self.line)?;
        writeln!(out, "  expected: {}", self.expected)?;
        writeln!(out, "  found:    {}", self.found)?;
        let program = self.program.to_string_lossy();
        writeln!(out, "{program:?} ended with {}", self.status)?;
        match &self.input {
            Some(path) => write!(out, "input: {}", path.display()),
            None => write!(out, "the input could not be written"),
        }
    }
}
