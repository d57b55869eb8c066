//! The benchmark's inputs, and how the program ends. Nothing is timed here.

mod common;

use common::fresh;
use host::bench::{heaviest, loading, Counter, Figures, Folder, Input, Kind};
use host::bench::{typical, Measured, Programs, Stop, KINDS, LOADING, SHORT, STORED, WORST};
use host::desk::{self, CALL, COLLECTION};
use host::limits::MAX_BOUND;
use host::monitor::{Answer, Monitor};
use host::runs::{Configuration, Reached};
use host::sets::CAP;
use host::sheet::{self, Automaton};
use host::tally::Tally;
use std::collections::HashSet;
use std::path::{Path, PathBuf};
use std::process::{Command, Output};

const BENCH: &str = env!("CARGO_BIN_EXE_bench");
const REFERENCE: &str = env!("CARGO_BIN_EXE_reference");
const FAST: &str = env!("CARGO_BIN_EXE_fast");

fn kind(name: &str) -> &'static Kind {
    let mut all = KINDS.iter().chain(SHORT).chain(WORST).chain(STORED);
    all.find(|kind| kind.name == name).expect("the kind exists")
}

/// The sheet of an input.
fn sheet_bytes(input: &Input) -> &[u8] {
    let length = u16::from_le_bytes([input.whole[0], input.whole[1]]);
    &input.whole[2..2 + usize::from(length)]
}

fn automaton(input: &Input) -> Automaton {
    sheet::read(sheet_bytes(input)).expect("the sheet loads")
}

fn tally(inputs: &[Input]) -> Tally {
    let mut tally = Tally::default();
    for input in inputs {
        tally.add(&desk::run(&input.whole));
    }
    tally
}

/// Makes all calls of an input and gives each answer with the pending length.
fn replay(input: &Input) -> Vec<(Answer, usize)> {
    let mut monitor = fresh(sheet_bytes(input));
    let calls = &input.whole[2 + sheet_bytes(input).len()..];
    let make = |call: &[u8]| {
        let date = u32::from_le_bytes([call[1], call[2], call[3], call[4]]);
        let answer = match call[0] {
            COLLECTION => monitor.collect(date),
            action => monitor.offer(action, date),
        };
        (answer, monitor.pending().len())
    };
    calls.chunks_exact(CALL).map(make).collect()
}

/// The lines for the counted calls of an input.
fn counted(input: &Input) -> Vec<String> {
    let skipped = desk::run(&input.base).lines().count();
    let output = desk::run(&input.whole);
    output.lines().skip(skipped).map(String::from).collect()
}

/// A part is the base and the first calls.
fn check_parts(input: &Input) {
    assert_eq!(input.part(0), input.base);
    assert_eq!(input.part(1).len(), input.base.len() + CALL);
    assert!(input.whole.starts_with(input.part(1)));
    assert_eq!(input.part(input.count), input.whole);
    assert_eq!(input.part(usize::MAX), input.whole);
}

#[test]
fn inputs_load_and_are_always_the_same() {
    for kind in KINDS.iter().chain(WORST).chain(STORED) {
        let inputs = kind.inputs(kind.short);
        assert_eq!(inputs, kind.inputs(kind.short), "{}", kind.name);
        let count: usize = inputs.iter().map(|input| input.count).sum();
        assert!(count >= kind.short, "{}", kind.name);
        for input in &inputs {
            automaton(input);
            assert!(input.whole.starts_with(&input.base));
            assert_eq!(counted(input).len(), input.count);
            assert_eq!(input.whole.len(), input.base.len() + CALL * input.count);
            check_parts(input);
        }
    }
}

#[test]
fn calls_that_show_the_lamp() {
    let rows = [
        ("refused, I-7", "refused I-7", "lamp 0"),
        ("lit, offers", "dropped", "lamp 1"),
        ("lit, collections", "none", "lamp 1"),
        ("collections, same first date", "none", "lamp 0"),
        ("collections, each a tick later", "none", "lamp 0"),
        ("held, 1 to 16", "held", "lamp 0"),
    ];
    for (name, answer, lamp) in rows {
        let inputs = kind(name).inputs(16);
        let lines = inputs.iter().flat_map(counted);
        for line in lines {
            assert!(line.contains(answer) && line.ends_with(lamp), "{line}");
        }
    }
}

#[test]
fn single_commands_are_scheduled_and_played() {
    let tally = tally(&kind("sheet A, single commands").inputs(2000));
    assert_eq!(tally.count("scheduled 1"), 1000);
    assert_eq!(tally.count("played"), 1000);
}

#[test]
fn mixed_calls() {
    for (name, clocks) in [("one clock", 1), ("two clocks", 2)] {
        let inputs = kind(name).inputs(1600);
        assert!(inputs.iter().all(|input| automaton(input).clocks == clocks));
        let sheets: HashSet<&[u8]> = inputs.iter().map(sheet_bytes).collect();
        assert_eq!(sheets.len(), 8);
        let tally = tally(&inputs);
        let names = [
            "scheduled 1",
            "scheduled 2 to 16",
            "held",
            "dropped",
            "played",
        ];
        for name in names {
            assert!(tally.count(name) >= 60, "{name}: {}", tally.count(name));
        }
        assert_eq!(tally.count("lamp 1"), 0);
    }
}

#[test]
fn long_held_lists() {
    let names = ["long held lists, one clock", "long held lists, two clocks"];
    for (name, clocks) in names.into_iter().zip(1..) {
        let inputs = kind(name).inputs(8000);
        assert!(inputs.iter().all(|input| automaton(input).clocks == clocks));
        for input in &inputs {
            let answers = replay(input);
            let long = answers.iter().filter(|(_, pending)| *pending >= 12);
            assert!(long.count() * 4 >= answers.len() * 3);
            let sizes = answers.iter().filter_map(|(answer, _)| match answer {
                Answer::Scheduled { count, .. } => Some(*count),
                _ => None,
            });
            let sizes: Vec<usize> = sizes.collect();
            assert!(sizes.len() * 60 >= answers.len());
            assert!(sizes.iter().all(|size| *size == 17));
        }
    }
}

/// The collections of an input's calls, as bytes.
fn collections(input: &Input) -> Vec<u8> {
    let calls = &input.whole[2 + sheet_bytes(input).len()..];
    let calls = calls.chunks_exact(CALL);
    let collections: Vec<&[u8]> = calls.filter(|call| call[0] == COLLECTION).collect();
    collections.concat()
}

#[test]
fn short_lists() {
    let inputs = kind("two clocks, 2 to 5 commands").inputs(1600);
    let mut lengths = HashSet::new();
    for input in &inputs {
        assert_eq!(automaton(input).clocks, 2);
        assert!(input.base.ends_with(&collections(input)));
        assert_eq!(input.whole.len(), input.base.len() + CALL * input.count);
        for (answer, _) in replay(input) {
            match answer {
                Answer::Scheduled { count, .. } => _ = lengths.insert(count),
                Answer::Held(_) | Answer::Played(_) => {}
                other => panic!("{other:?}"),
            }
        }
    }
    assert_eq!(lengths, HashSet::from([2, 3, 4, 5]));
    let offers: usize = inputs.iter().map(|input| input.count).sum();
    let tally = tally(&inputs);
    let scheduled = tally.count("scheduled 2 to 16") as usize;
    assert!(offers >= 1600 && scheduled * 4 >= offers);
    assert_eq!(tally.count("played") as usize, offers);
}

/// The readings capped, so that configurations that act alike are equal.
fn capped(reached: Reached) -> (u8, [u32; 2]) {
    let Configuration {
        location,
        valuation,
    } = reached.configuration;
    (location, valuation.map(|reading| reading.min(CAP as u32)))
}

fn at(state: (u8, [u32; 2])) -> Reached {
    let (location, valuation) = state;
    Reached {
        configuration: Configuration {
            location,
            valuation,
        },
        date: 0,
    }
}

/// All that waiting makes of some states.
fn waiting(states: impl Iterator<Item = (u8, [u32; 2])>) -> HashSet<(u8, [u32; 2])> {
    let later = |state| (0..=CAP as u32).filter_map(move |date| at(state).wait_until(date));
    states.flat_map(later).map(capped).collect()
}

/// How many states a search meets: actions left, location and readings.
fn states(monitor: &Monitor, list: &[u8]) -> usize {
    let automaton = monitor.automaton();
    let mut states = waiting([capped(monitor.reached())].into_iter());
    let mut sum = states.len();
    for action in list {
        let next = states
            .iter()
            .filter_map(|state| at(*state).play(automaton, *action));
        states = waiting(next.map(capped));
        sum += states.len();
    }
    sum
}

/// The largest bound, as ticks.
const LAST: u32 = MAX_BOUND as u32;

fn check_largest(bytes: &[u8]) {
    assert_eq!(bytes.len(), 518);
    let automaton = sheet::read(bytes).expect("the sheet loads");
    let counts = (automaton.locations, automaton.clocks, automaton.actions);
    assert_eq!(counts, (16, 2, 16));
    assert_eq!(automaton.transition_count(), 64);
    assert_eq!(automaton.accepting.count_ones(), 1);
}

#[test]
fn heaviest_sheets() {
    let list = [heaviest::HELD; 17];
    for (bytes, least) in [
        (heaviest::many_states(), 360_000),
        (heaviest::late_correction(), 220_000),
    ] {
        check_largest(&bytes);
        let found = states(&fresh(&bytes), &list);
        assert!(found >= least, "{found} states");
    }
}

#[test]
fn heaviest_batches() {
    for (name, ticks) in [
        ("heaviest, many states", LAST),
        ("heaviest, late correction", 15 * (LAST - 1)),
    ] {
        let inputs = kind(name).inputs(34);
        let answers = replay(&inputs[0]);
        assert_eq!(answers.len(), 34);
        assert_eq!(answers[15], (Answer::Held(16), 16));
        let (Answer::Scheduled { count, last }, 0) = answers[33] else {
            panic!("{name}: {:?}", answers[33]);
        };
        assert_eq!(count, 17);
        assert!(last >= ticks, "{name}: {last}");
    }
    let tally = tally(&kind("heaviest, many states").inputs(340));
    assert_eq!(tally.count("scheduled 17"), 10);
    assert_eq!(tally.count("played"), 9 * 17);
}

#[test]
fn worst_offers() {
    for (name, answer) in [
        ("many states, S-4", "refused S-4"),
        ("many states, dropped", "dropped"),
        ("many states, S-3", "refused S-3"),
        ("late correction, S-3", "refused S-3"),
    ] {
        for input in kind(name).inputs(2) {
            for line in counted(&input) {
                assert!(line.contains(answer), "{name}: {line}");
            }
            let (_, pending) = *replay(&input).last().expect("there are calls");
            assert_eq!(pending, 16);
        }
    }
}

#[test]
fn heaviest_plans() {
    check_largest(&heaviest::dead_locations());
    for (name, ticks) in [
        ("many states, scheduled", LAST),
        ("late correction, scheduled", 15 * (LAST - 1)),
        ("worst plan found", LAST),
        ("worst waits found", 15 * LAST),
    ] {
        let inputs = kind(name).inputs(1);
        let answers = replay(&inputs[0]);
        let (Answer::Scheduled { count, last }, 0) = answers[16] else {
            panic!("{name}: {:?}", answers[16]);
        };
        assert_eq!((inputs.len(), answers.len(), count), (1, 17, 17));
        assert!(last >= ticks, "{name}: {last}");
    }
}

#[test]
fn loading_takes_the_largest_sheets() {
    let largest = loading::sheets();
    let longest = vec![loading::long_way()];
    let sheets = [&largest, &largest, &longest, &longest]
        .into_iter()
        .flatten();
    let sheets: Vec<_> = sheets.collect();
    sheets.iter().for_each(|bytes| check_largest(bytes));
    let inputs = LOADING.iter().flat_map(|kind| kind.inputs(kind.calls));
    let inputs: Vec<Input> = inputs.collect();
    assert_eq!(inputs.len(), sheets.len());
    for (input, bytes) in inputs.iter().zip(&sheets) {
        assert_eq!(sheet_bytes(input), *bytes);
        assert_eq!(desk::run(&input.base), "sheet refused I-1\n");
        assert!(desk::run(&input.whole).starts_with("sheet 16 2 16 64 1"));
    }
}

#[test]
fn the_long_way_is_long() {
    let monitor = fresh(&loading::long_way());
    let automaton = monitor.automaton();
    let accepting = |state: &(u8, [u32; 2])| automaton.is_accepting(state.0);
    let play = |state: &(u8, [u32; 2])| {
        let each = (0..automaton.actions).map(|action| at(*state).play(automaton, action));
        each.flatten().map(capped).collect::<Vec<_>>()
    };
    let mut known = HashSet::new();
    let mut newest = waiting([capped(monitor.reached())].into_iter());
    let mut actions = 0;
    while !newest.iter().any(accepting) {
        assert!(!newest.is_empty(), "no accepting location is reached");
        known.extend(&newest);
        let next: Vec<_> = newest.iter().flat_map(play).collect();
        newest = &waiting(next.into_iter()) - &known;
        actions += 1;
    }
    assert!(actions >= 15 * CAP, "{actions} actions");
}

fn call(arguments: &[&str]) -> Output {
    let output = Command::new(BENCH).args(arguments).output();
    output.expect("the program runs")
}

#[test]
fn wrong_arguments() {
    let cases: [&[&str]; 9] = [
        &[],
        &["--instructions"],
        &["--inputs"],
        &["--inputs", "/no/such/folder"],
        &["--inputs", "folder", "other"],
        &["program", "--other"],
        &["program", "other"],
        &["program", "--instructions", "other"],
        &["/no/such/program"],
    ];
    for arguments in cases {
        let output = call(arguments);
        assert_eq!(output.status.code(), Some(2), "{arguments:?}");
        assert!(String::from_utf8_lossy(&output.stderr).contains("usage"));
    }
}

#[test]
fn inputs_are_written() {
    let folder = Path::new(env!("CARGO_TARGET_TMPDIR")).join("bench-inputs");
    std::fs::create_dir_all(&folder).expect("a folder can be made");
    let output = call(&["--inputs", &folder.to_string_lossy()]);
    assert!(output.status.success());
    for kind in KINDS.iter().chain(SHORT).chain(WORST).chain(LOADING) {
        for (number, input) in kind.inputs(kind.short).iter().enumerate() {
            let path = folder.join(format!("{}, {number}", kind.name));
            let written = std::fs::read(path).expect("the input was written");
            assert_eq!(written, input.whole);
        }
    }
}

/// Measures a program on a small input of sheet A, of which the reference is
/// given some calls.
fn measure(program: &Path, few: usize) -> Result<Measured, Stop> {
    let programs = Programs {
        program: program.to_path_buf(),
        reference: REFERENCE.into(),
        fast: FAST.into(),
    };
    let inputs = kind("sheet A, single commands").inputs(20);
    programs.measure(&Folder::new()?, &inputs, 3, few)
}

#[test]
fn equal_outputs_are_measured() {
    for few in [0, 1, 19, 20, usize::MAX] {
        let measured = measure(Path::new(REFERENCE), few).expect("no difference");
        assert_eq!(measured.count, 20);
    }
}

#[test]
fn typical_times_leave_out_the_slow_and_the_luckiest() {
    let times = (0..20).rev().map(f64::from).collect();
    assert_eq!(typical(times), 5.5);
    assert_eq!(typical(vec![9.0, 1.0, 2.0]), 1.5);
    assert_eq!(typical(vec![3.0]), 3.0);
}

#[test]
fn ratios_say_how_much_more_the_others_need() {
    let figures = Figures {
        program: 2.0,
        reference: 6.0,
        fast: 1.0,
    };
    assert_eq!(figures.to_reference(), Some(3.0));
    assert_eq!(figures.to_fast(), Some(0.5));
    let lost = Figures {
        reference: f64::NAN,
        fast: -1.0,
        ..figures
    };
    assert_eq!((lost.to_reference(), lost.to_fast()), (None, None));
}

#[test]
fn folders_go() {
    let folder = Folder::new().expect("a folder can be made");
    let other = Folder::new().expect("a folder can be made");
    let path = folder
        .write("some", b"bytes")
        .expect("a file can be written");
    assert_ne!(folder.file("some"), other.file("some"));
    assert!(path.exists());
    drop(folder);
    assert!(!path.exists());
}

#[test]
fn instructions_are_counted_where_they_can_be() {
    let Some(counter) = Counter::find() else {
        return;
    };
    let folder = Folder::new().expect("a folder can be made");
    let inputs = kind("sheet A, single commands").inputs(20);
    let count = counter.per_call(&folder, Path::new(REFERENCE), &inputs);
    let count = count.expect("the tool runs");
    assert!(count.is_none_or(|count| count > 100.0), "{count:?}");
}

/// A program that changes the lines of the reference from some line on.
#[cfg(unix)]
fn wrong_program(name: &str, from: usize) -> PathBuf {
    use std::os::unix::fs::PermissionsExt;
    let path = Path::new(env!("CARGO_TARGET_TMPDIR")).join(name);
    let body = format!("#!/bin/sh\n'{REFERENCE}' | sed '{from},$s/played 1/played 0/'\n");
    std::fs::write(&path, body).expect("the script is written");
    let mode = std::fs::Permissions::from_mode(0o755);
    std::fs::set_permissions(&path, mode).expect("the script can be run");
    path
}

#[cfg(unix)]
#[test]
fn a_difference_ends_it() {
    let path = wrong_program("bench-dark.sh", 1);
    let output = call(&[&path.to_string_lossy()]);
    assert_eq!(output.status.code(), Some(1));
    let text = String::from_utf8_lossy(&output.stdout);
    assert!(
        text.contains("difference: sheet A, single commands, line 7\n"),
        "{text}"
    );
    assert!(text.contains("played 1 ") && text.contains("played 0 "));
    assert!(text.contains("bench-dark.sh\" ended with "), "{text}");
    let input = text.lines().find_map(|line| line.strip_prefix("input: "));
    let input = input.expect("the input was written");
    assert!(desk::run(&std::fs::read(input).expect("it can be read")).contains("played 1 "));
    std::fs::remove_file(input).expect("it can be removed");
}

/// Where the reference has no lines, those of the program written for speed
/// are compared with.
#[cfg(unix)]
#[test]
fn a_late_difference_is_seen() {
    let path = wrong_program("bench-late.sh", 10);
    for few in [2, 20] {
        let Err(Stop::Difference(difference)) = measure(&path, few) else {
            panic!("no difference");
        };
        assert_eq!((difference.line, &difference.program), (13, &path));
        let input = difference.input.expect("the input was written");
        std::fs::remove_file(input).expect("it can be removed");
    }
}
