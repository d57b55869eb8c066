//! The desk program: reads its whole input and makes its lines. With a loading
//! date before that input it is the other desk program.

use crate::lines::{push_answer, push_number, push_word};
use crate::loading::Loading;
use crate::monitor::{Answer, Monitor};
use crate::refusal::Refusal;
use crate::sheet::{self, Automaton};
use std::ffi::OsString;
use std::io::{self, Read, Write};
use std::process::ExitCode;

/// Bytes of one call: the action or the collection mark, and the date.
pub const CALL: usize = 5;
/// The first byte of a call that is a collection.
pub const COLLECTION: u8 = 255;

/// A box, as the desk program uses it.
pub trait Calls {
    /// A fresh box, loaded at a date that is not above the last one.
    fn fresh(automaton: Automaton, loaded: u32) -> Self;
    /// Offers an action at a date.
    fn offer(&mut self, action: u8, date: u32) -> Answer;
    /// Collects the oldest scheduled action if it is due at a date.
    fn collect(&mut self, date: u32) -> Answer;
    /// Whether the lamp is lit.
    fn lamp(&self) -> bool;
}

impl Calls for Monitor {
    fn fresh(automaton: Automaton, loaded: u32) -> Self {
        Monitor::new(automaton, loaded)
    }

    fn offer(&mut self, action: u8, date: u32) -> Answer {
        Monitor::offer(self, action, date)
    }

    fn collect(&mut self, date: u32) -> Answer {
        Monitor::collect(self, date)
    }

    fn lamp(&self) -> bool {
        Monitor::lamp(self)
    }
}

/// Gives all lines that the desk program prints for an input.
pub fn run(input: &[u8]) -> String {
    run_with::<Monitor>(input)
}

/// Gives all lines for an input that begins with a loading date.
pub fn run_at(input: &[u8]) -> String {
    run_as::<Monitor>(Loading::AtDate, input)
}

/// Gives all lines, worked out with a box of some kind.
pub fn run_with<M: Calls>(input: &[u8]) -> String {
    run_as::<M>(Loading::AtZero, input)
}

/// The same for an input that begins in either way.
pub fn run_as<M: Calls>(loading: Loading, input: &[u8]) -> String {
    let Some((date, rest)) = loading.split(input) else {
        return refused_sheet(Refusal::I1);
    };
    let Some((bytes, calls)) = split(rest) else {
        return refused_sheet(Refusal::I1);
    };
    match sheet::load(bytes, date) {
        Ok(automaton) => {
            let mut lines = header(&automaton).into_bytes();
            call_lines(&mut M::fresh(automaton, date), calls, &mut lines);
            String::from_utf8(lines).expect("all lines are text")
        }
        Err(refusal) => refused_sheet(refusal),
    }
}

/// Runs as a program from standard input to standard output. Its one argument,
/// if any, says that the input begins with a loading date.
pub fn main_with<M: Calls>(name: &str) -> ExitCode {
    let arguments: Vec<OsString> = std::env::args_os().skip(1).collect();
    let (loading, []) = Loading::parse(&arguments) else {
        eprintln!("usage: {name} [--at] < input");
        return ExitCode::from(2);
    };
    match answer_with::<M>(loading) {
        Ok(()) => ExitCode::SUCCESS,
        Err(error) => {
            eprintln!("{name}: {error}");
            ExitCode::FAILURE
        }
    }
}

fn answer_with<M: Calls>(loading: Loading) -> io::Result<()> {
    let mut input = Vec::new();
    io::stdin().lock().read_to_end(&mut input)?;
    let mut out = io::stdout().lock();
    out.write_all(run_as::<M>(loading, &input).as_bytes())?;
    out.flush()
}

/// Splits an input into sheet and calls; `None` if it has too few bytes.
pub fn split(input: &[u8]) -> Option<(&[u8], &[u8])> {
    let (length, rest) = input.split_at_checked(2)?;
    let length = u16::from_le_bytes([length[0], length[1]]);
    rest.split_at_checked(usize::from(length))
}

fn refused_sheet(refusal: Refusal) -> String {
    format!("sheet refused {refusal}\n")
}

/// The first line for a sheet that loads.
fn header(automaton: &Automaton) -> String {
    format!(
        "sheet {} {} {} {} {}\n",
        automaton.locations,
        automaton.clocks,
        automaton.actions,
        automaton.transition_count(),
        automaton.accepting.count_ones()
    )
}

/// Adds a line for each call, and one for the bytes left over.
fn call_lines(monitor: &mut impl Calls, bytes: &[u8], lines: &mut Vec<u8>) {
    let calls = bytes.chunks_exact(CALL);
    let tail = calls.remainder().len();
    // Most lines are shorter.
    lines.reserve(bytes.len() / CALL * 32);
    for (index, call) in calls.enumerate() {
        let answer = make_call(monitor, call);
        push_number(lines, index as u32 + 1);
        push_answer(lines, &answer);
        let lit = monitor.lamp();
        lines.extend_from_slice(if lit { b" lamp 1\n" } else { b" lamp 0\n" });
    }
    if tail > 0 {
        lines.extend_from_slice(b"tail");
        push_word(lines, tail as u32);
        lines.push(b'\n');
    }
}

/// Makes the call that five bytes stand for.
fn make_call(monitor: &mut impl Calls, call: &[u8]) -> Answer {
    let date = date_of(call);
    match call[0] {
        COLLECTION => monitor.collect(date),
        action => monitor.offer(action, date),
    }
}

/// The date of the call that five bytes stand for.
pub fn date_of(call: &[u8]) -> u32 {
    u32::from_le_bytes([call[1], call[2], call[3], call[4]])
}
