//! Compares a desk program with the reference over random inputs, and over some
//! that use up the numbers; or one that reads a loading date, over random inputs.

use host::bounds;
use host::compare::{compare, Stop, Summary};
use host::generate::{kind_named, Kind, KINDS, ONCE};
use host::loading::{self, Loading};
use host::seeds::Seeds;
use host::tally::Tally;
use std::ffi::OsString;
use std::path::Path;
use std::process::ExitCode;

const USAGE: &str = "usage: compare [--at] PROGRAM SEEDS [FIRST_SEED [KIND]..]";

/// Seeds of every kind among which nothing that bounds and loading dates show may
/// be missing.
const ENOUGH: u64 = 100;

/// What to compare.
struct Task<'a> {
    loading: Loading,
    program: &'a Path,
    seeds: Seeds<&'static Kind>,
}

fn main() -> ExitCode {
    let arguments: Vec<OsString> = std::env::args_os().skip(1).collect();
    let Some(task) = parse(&arguments) else {
        eprintln!("{USAGE}\nthe kinds are those of `generate --list`, with --at the random ones");
        return ExitCode::from(2);
    };
    let (program, seeds) = (task.program, &task.seeds);
    let kinds = seeds.kinds.iter().copied();
    match compare(program, task.loading, kinds, seeds.first, seeds.count) {
        Ok(summary) => tell(&task, &summary),
        Err(Stop::Difference(difference)) => {
            println!("{difference}");
            ExitCode::FAILURE
        }
        Err(Stop::Pointless { kind, missing }) => {
            println!("the input of kind {kind} has lost its point: {missing}");
            ExitCode::FAILURE
        }
        Err(Stop::NotRun(error)) => {
            let program = program.to_string_lossy();
            eprintln!("compare: {program:?} cannot be run: {error}\n{USAGE}");
            ExitCode::from(2)
        }
    }
}

/// What to go over, or nothing if the arguments are wrong.
fn parse(arguments: &[OsString]) -> Option<Task<'_>> {
    let (loading, words) = Loading::parse(arguments);
    let (program, words) = words.split_first()?;
    let begins = |kind: &&'static Kind| kind.begins(loading);
    let mut seeds = Seeds::parse(words, |name| kind_named(name).filter(begins))?;
    if seeds.kinds.is_empty() {
        let all = KINDS.iter().chain(ONCE);
        seeds.kinds.extend(all.filter(begins));
    }
    let program = Path::new(program);
    Some(Task {
        loading,
        program,
        seeds,
    })
}

/// What inputs must show and these do not.
fn missing(loading: Loading, tally: &Tally) -> Vec<String> {
    let mut missing = bounds::missing(tally);
    if loading == Loading::AtDate {
        missing.extend(loading::missing(tally).into_iter().map(String::from));
    }
    missing
}

/// Prints the summary. Enough inputs show all that they can.
fn tell(task: &Task, summary: &Summary) -> ExitCode {
    print!("{summary}");
    let seeds = &task.seeds;
    let named = |kind: &Kind| seeds.kinds.iter().any(|named| named.name == kind.name);
    let enough = seeds.count >= ENOUGH && KINDS.iter().all(named);
    let missing = missing(task.loading, &summary.random.tally);
    if !enough || missing.is_empty() {
        return ExitCode::SUCCESS;
    }
    let missing = missing.join("; ");
    println!("the inputs have lost their point; missing: {missing}");
    ExitCode::FAILURE
}
