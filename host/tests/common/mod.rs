//! Helpers that several tests share.
#![allow(dead_code)]

use host::desk;
use host::generate::kind_named;
use host::monitor::{Answer, Monitor, ScheduledAction};
use host::refusal::Refusal;
use host::runs::TimedAction;
use host::sheet::{self, Automaton};
use std::io::Write;
use std::process::{Command, Output, Stdio};

/// The first byte of a collection.
pub const COLLECT: u8 = 255;

/// A fresh box, loaded at date 0.
pub fn fresh(bytes: &[u8]) -> Monitor {
    loaded(bytes, 0)
}

/// A fresh box, loaded at a date.
pub fn loaded(bytes: &[u8], date: u32) -> Monitor {
    let automaton = sheet::load(bytes, date).expect("the sheet loads");
    Monitor::new(automaton, date)
}

/// The answer that schedules so many actions.
pub fn scheduled(count: usize, last: u32) -> Answer {
    Answer::Scheduled { count, last }
}

/// The answer that plays an action, with the number and date of its offer.
pub fn played(action: u8, date: u32, number: u32, offered: u32) -> Answer {
    Answer::Played(ScheduledAction {
        action,
        date,
        number,
        offered,
    })
}

/// The answer that refuses.
pub fn refused(refusal: Refusal) -> Answer {
    Answer::Refused(refusal)
}

/// The dates of all that was ever scheduled.
pub fn dates(monitor: &Monitor) -> Vec<u32> {
    monitor.history().iter().map(|timed| timed.date).collect()
}

/// Everything ever scheduled, as a run.
pub fn run_of(monitor: &Monitor) -> Vec<TimedAction> {
    let history = monitor.history().iter();
    history.map(ScheduledAction::timed).collect()
}

/// The answer of a line with the call's number cut off, and with the number and
/// date of the offer too. These would tell apart what is else the same.
pub fn bare_answer(line: &str) -> Option<String> {
    let (_, answer) = line.split_once(' ')?;
    let words: Vec<&str> = answer.split(' ').collect();
    Some(match words.as_slice() {
        ["played", action, date, _, _, lamp @ ..] => {
            format!("played {action} {date} {}", lamp.join(" "))
        }
        _ => answer.into(),
    })
}

/// Where the first call starts in a desk input.
pub fn first_call(input: &[u8]) -> usize {
    2 + usize::from(u16::from_le_bytes([input[0], input[1]]))
}

/// Seeds per kind over which occurrences are counted.
pub const SEEDS: u64 = 400;

/// The automata of a kind's inputs, as far as they load.
pub fn automata(name: &str) -> Vec<(usize, Automaton)> {
    let kind = kind_named(name).expect("the kind exists");
    let inputs = (0..SEEDS).map(|seed| kind.input(seed));
    let load = |input: Vec<u8>| {
        let end = first_call(&input);
        let automaton = sheet::read(input.get(2..end)?).ok()?;
        Some((end - 2, automaton))
    };
    inputs.filter_map(load).collect()
}

/// A desk input of a sheet and calls.
pub fn input(bytes: &[u8], calls: &[(u8, u32)]) -> Vec<u8> {
    let mut input = (bytes.len() as u16).to_le_bytes().to_vec();
    input.extend_from_slice(bytes);
    for (first, date) in calls {
        input.push(*first);
        input.extend_from_slice(&date.to_le_bytes());
    }
    input
}

/// The same for a box loaded at a date.
pub fn input_at(date: u32, bytes: &[u8], calls: &[(u8, u32)]) -> Vec<u8> {
    [&date.to_le_bytes()[..], &input(bytes, calls)].concat()
}

/// The lines for a sheet and calls.
pub fn lines(bytes: &[u8], calls: &[(u8, u32)]) -> Vec<String> {
    let output = desk::run(&input(bytes, calls));
    output.lines().map(String::from).collect()
}

/// Runs a program on an input and gives what it prints.
pub fn call_with(program: &str, arguments: &[&str], input: &[u8]) -> Output {
    let mut command = Command::new(program);
    command.args(arguments).stdin(Stdio::piped());
    command.stdout(Stdio::piped()).stderr(Stdio::piped());
    let mut child = command.spawn().expect("the program runs");
    let mut stdin = child.stdin.take().expect("its input is open");
    // It may end without reading all of its input.
    let _ = stdin.write_all(input);
    drop(stdin);
    child.wait_with_output().expect("the program ends")
}

/// A sheet from its counts, its accepting set and the rules of each location.
pub fn sheet_of(counts: [u8; 4], accepting: u16, rules: &[&[[u8; 7]]]) -> Vec<u8> {
    let mut bytes = counts.to_vec();
    bytes.extend_from_slice(&accepting.to_le_bytes());
    let mut offset = 6 + 4 * rules.len();
    for table in rules {
        bytes.extend_from_slice(&(offset as u16).to_le_bytes());
        bytes.extend_from_slice(&(7 * table.len() as u16).to_le_bytes());
        offset += 7 * table.len();
    }
    bytes.extend(rules.iter().flat_map(|table| table.iter()).flatten());
    bytes
}
