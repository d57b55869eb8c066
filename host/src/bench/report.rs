//! The tables, printed row by row.

use super::instructions::Counter;
use super::measure::{Figures, Folder, Programs, Stop};
use super::{Input, Kind, KINDS, LOADING, SHORT, STORED, WORST};
use std::fmt::Display;
use std::io::Write;
use std::path::Path;

/// A unit of time, and how many of it are a second.
#[derive(Clone, Copy)]
struct Unit {
    name: &'static str,
    per_second: f64,
}

const MICROSECONDS: Unit = Unit {
    name: "us",
    per_second: 1e6,
};
const MILLISECONDS: Unit = Unit {
    name: "ms",
    per_second: 1e3,
};

/// How often a run without a sheet is timed.
const START_UPS: usize = 99;

/// A group of kinds with its title, and what its figures are per.
struct Group {
    title: &'static str,
    per: &'static str,
    unit: Unit,
    /// Seconds below which a time is not told from noise.
    noise: f64,
    kinds: &'static [Kind],
}

const CALLS: Group = Group {
    title: "input",
    per: "call",
    unit: MICROSECONDS,
    noise: 0.0,
    kinds: KINDS,
};
const LISTS: Group = Group {
    title: "short lists",
    per: "offer",
    unit: MICROSECONDS,
    noise: 0.0,
    kinds: SHORT,
};
const OFFERS: Group = Group {
    title: "heaviest",
    per: "offer",
    unit: MILLISECONDS,
    noise: 0.0,
    kinds: WORST,
};
const LAMPS: Group = Group {
    title: "lamp",
    per: "call",
    unit: MICROSECONDS,
    noise: 0.0,
    kinds: STORED,
};
const LOADS: Group = Group {
    title: "loading",
    per: "load",
    unit: MICROSECONDS,
    noise: 2e-6,
    kinds: LOADING,
};

impl Group {
    /// A time in the group's unit, if it is told from noise.
    fn time(&self, seconds: f64) -> f64 {
        if seconds > self.noise {
            seconds * self.unit.per_second
        } else {
            f64::NAN
        }
    }

    /// The line above a table. A ratio above 1 means that the desk program
    /// needs less than the program before the ratio.
    fn head(&self, unit: &str) -> String {
        let title = format!("{}, {unit} per {}", self.title, self.per);
        let names = ["desk", "reference", "ratio", "fast", "ratio"];
        line(&title, &format!("{}s", self.per), names)
    }
}

/// All that a row needs.
struct Bench<'a> {
    programs: &'a Programs,
    counter: Option<Counter>,
    folder: Folder,
    out: &'a mut dyn Write,
}

/// Measures all kinds and prints the tables. The instructions of loads, and of
/// the calls that show what the lamp adds, are always counted if they can be,
/// those of other calls if asked for.
pub fn report(programs: &Programs, counting: bool, out: &mut dyn Write) -> Result<(), Stop> {
    let mut bench = Bench {
        programs,
        counter: Counter::find(),
        folder: Folder::new()?,
        out,
    };
    for group in [CALLS, LISTS, OFFERS] {
        bench.times(&group)?;
        if counting {
            bench.instructions(&group)?;
        }
    }
    for group in [LAMPS, LOADS] {
        bench.times(&group)?;
        bench.instructions(&group)?;
    }
    bench.start_up()
}

impl Bench<'_> {
    /// A table of the times of some kinds.
    fn times(&mut self, group: &Group) -> Result<(), Stop> {
        self.line(&group.head(group.unit.name))?;
        for kind in group.kinds {
            let inputs = kind.inputs(kind.calls);
            let measured = self
                .programs
                .measure(&self.folder, &inputs, kind.rounds, kind.few)
                .map_err(|stop| stop.at(kind.name))?;
            let each = measured.each.map(|seconds| group.time(seconds));
            self.line(&row(kind.name, measured.count, &each, 3))?;
        }
        self.line("")
    }

    /// A table of the instructions of some kinds.
    fn instructions(&mut self, group: &Group) -> Result<(), Stop> {
        let Some(counter) = self.counter else {
            return self.line("valgrind is not on this machine; instructions are not counted\n");
        };
        self.line(&group.head("instructions"))?;
        for kind in group.kinds {
            let inputs = kind.inputs(kind.short);
            let count = inputs.iter().map(|input| input.count).sum();
            let each = self.counts(counter, kind, &inputs)?;
            self.line(&row(kind.name, count, &each, 0))?;
        }
        self.line("")
    }

    /// Instructions for each call or load. Those of the reference are left out
    /// where it is too slow to be given all calls.
    fn counts(&self, counter: Counter, kind: &Kind, inputs: &[Input]) -> Result<Figures, Stop> {
        let count = |program: &Path| {
            let count = counter.per_call(&self.folder, program, inputs)?;
            Ok(count.unwrap_or(f64::NAN))
        };
        Ok(Figures {
            program: count(&self.programs.program)?,
            reference: if kind.few < kind.calls {
                f64::NAN
            } else {
                count(&self.programs.reference)?
            },
            fast: count(&self.programs.fast)?,
        })
    }

    /// Tells what a run takes that does nothing.
    fn start_up(&mut self) -> Result<(), Stop> {
        let nothing = Input {
            base: Vec::new(),
            whole: Vec::new(),
            count: 1,
        };
        let measured = self
            .programs
            .measure(&self.folder, &[nothing], START_UPS, 1)?;
        let base = measured
            .base
            .map(|seconds| seconds * MICROSECONDS.per_second);
        self.line(&format!(
            "start-up, not counted above: desk {:.0} us, reference {:.0} us, fast {:.0} us",
            base.program, base.reference, base.fast
        ))
    }

    fn line(&mut self, line: &str) -> Result<(), Stop> {
        let written = writeln!(self.out, "{line}").and_then(|()| self.out.flush());
        written.map_err(Stop::Files)
    }
}

/// A line of a table. There is no ratio where a figure is not known.
fn row(name: &str, count: usize, each: &Figures, digits: usize) -> String {
    let figure = |figure: f64| match figure {
        known if known.is_finite() => format!("{known:.digits$}"),
        _ => "-".into(),
    };
    let ratio = |ratio: Option<f64>| ratio.map_or("-".into(), |ratio| format!("{ratio:.3}"));
    let columns = [
        figure(each.program),
        figure(each.reference),
        ratio(each.to_reference()),
        figure(each.fast),
        ratio(each.to_fast()),
    ];
    line(name, &count.to_string(), columns)
}

fn line<T: Display>(name: &str, count: &str, columns: [T; 5]) -> String {
    let [desk, reference, first, fast, second] = columns;
    format!("{name:<34} {count:>7} {desk:>9} {reference:>11} {first:>9} {fast:>9} {second:>7}")
}
