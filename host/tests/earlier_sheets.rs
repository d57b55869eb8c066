//! Readings around the largest bound, and that no answer changes on a sheet whose
//! bounds are at most 30: a box that caps readings at 31, as document 01 has it,
//! prints the same lines.

#[path = "common/capped.rs"]
mod capped;
mod common;

use capped::Capped;
use common::{first_call, fresh, input, scheduled, sheet_of, COLLECT};
use host::desk::{self, run_with, Calls, CALL};
use host::fast;
use host::generate::{draw, profile, Bounds, Profile, EARLIER_MOST, KINDS};
use host::monitor::{Answer, Monitor};
use host::random::Random;
use host::sheet::{self, Automaton};

/// Document 01's cap, that of document 02, and one far above all bounds.
type Earlier = Capped<31>;
type Now = Capped<41>;
type Far = Capped<60>;

/// Calls of an input that are made at most.
const CALLS: usize = 120;

/// The inputs of all kinds whose sheets load, with their first calls.
fn inputs(seeds: u64) -> impl Iterator<Item = (Automaton, Vec<u8>)> {
    let inputs = KINDS
        .iter()
        .flat_map(move |kind| (0..seeds).map(|seed| kind.input(seed)));
    inputs.filter_map(|mut input| {
        let (bytes, _) = desk::split(&input)?;
        let automaton = sheet::read(bytes).ok()?;
        input.truncate(first_call(&input) + CALL * CALLS);
        Some((automaton, input))
    })
}

/// The largest bound of an automaton.
fn largest(automaton: &Automaton) -> u8 {
    let guards = automaton.outgoing.iter().flatten().flat_map(|it| it.guards);
    let bounds = guards.flat_map(|guard| [guard.low, guard.high.unwrap_or_default()]);
    bounds.max().unwrap_or_default()
}

/// Requires the lines of document 01's box from both boxes of this library.
fn same_as_earlier(input: &[u8]) -> usize {
    let lines = run_with::<Earlier>(input);
    assert_eq!(desk::run(input), lines);
    assert_eq!(run_with::<fast::Monitor>(input), lines);
    lines.lines().count()
}

#[test]
fn no_answer_changes_on_generated_inputs() {
    let earlier = inputs(150).filter(|(automaton, _)| largest(automaton) <= EARLIER_MOST);
    let lines = earlier.map(|(_, input)| same_as_earlier(&input));
    let lines: Vec<usize> = lines.collect();
    let sum: usize = lines.iter().sum();
    assert!(
        lines.len() >= 1_200 && sum >= 40_000,
        "{} {sum}",
        lines.len()
    );
}

/// Random calls, and collections that show all dates.
fn calls(random: &mut Random, actions: u8) -> Vec<(u8, u32)> {
    let (mut date, mut calls) = (0, Vec::new());
    for _ in 0..random.between(10, 50) {
        let long = random.between(0, 45);
        date += random.pick(&[0, 0, 0, 1, 2, 5, long]);
        let action = random.byte(0, actions - 1);
        calls.push((random.pick(&[action, action, action, COLLECT]), date));
    }
    calls.extend([(COLLECT, date + 1000); 33]);
    calls
}

/// A sheet with bounds up to 30, among them the largest, and random calls.
fn earlier_input(seed: u64) -> Vec<u8> {
    let random = &mut Random::new(seed);
    let clocks = random.byte(1, 2);
    let low = random.pick(&[0, 0, EARLIER_MOST - 5]);
    let high = EARLIER_MOST;
    let profile = Profile {
        bounds: Bounds { low, high },
        splits: random.between(1, 3),
        ..profile(random, clocks)
    };
    let draft = draw(random, &profile);
    let calls = calls(random, draft.actions);
    input(&draft.bytes(), &calls)
}

#[test]
fn no_answer_changes_with_bounds_up_to_30() {
    for seed in 0..2_000 {
        same_as_earlier(&earlier_input(seed));
    }
}

/// One location in which command 0 may come while a clock reads so.
fn while_clock(clock: usize, low: u8, high: u8) -> Automaton {
    let mut rule = [0, 0, 0, 0, 255, 0, 255];
    rule[1 + 2 * clock..][..2].copy_from_slice(&[low, high]);
    sheet::read(&sheet_of([1, 2, 1, 0], 1, &[&[rule]])).expect("the sheet loads")
}

/// The answer to an offer at a date, and whether the lamp was lit before it.
fn answer<M: Calls>(automaton: &Automaton, loaded: u32, date: u32) -> (Answer, bool) {
    let mut monitor = M::fresh(automaton.clone(), loaded);
    assert_eq!(monitor.collect(date), Answer::Nothing);
    let lit = monitor.lamp();
    (monitor.offer(0, date), lit)
}

/// Requires what bounds of either clock say for each date, of both boxes.
fn require_within(low: u8, high: u8, loaded: u32) {
    let (first, last) = (u32::from(low), u32::from(high));
    for clock in [1, 2] {
        let automaton = while_clock(clock, low, high);
        for reading in (0..=60).chain([255, 256, 100_000]) {
            let date = loaded + reading;
            let expected = if high == 255 || reading <= last {
                (scheduled(1, loaded + reading.max(first)), false)
            } else {
                (Answer::Dropped, true)
            };
            let found = answer::<Monitor>(&automaton, loaded, date);
            assert_eq!(found, expected, "{low} to {high} at {reading}");
            assert_eq!(answer::<fast::Monitor>(&automaton, loaded, date), expected);
        }
    }
}

/// A switcher that needs 36 frames to settle, and all other bounds from 30 on.
#[test]
fn readings_up_to_40_are_told_apart() {
    for loaded in [0, 43_200] {
        for bound in 30..=40 {
            require_within(bound, bound, loaded);
            require_within(bound, 255, loaded);
            require_within(0, bound, loaded);
            require_within(bound, 40, loaded);
        }
    }
}

/// A command that comes 36 to 36 ticks after another, which resets the clock, is
/// delayed until then, and too late a tick after.
#[test]
fn settling_for_36_frames() {
    let start = [0, 1, 1, 0, 255, 0, 255];
    let settled = [1, 0, 0, 36, 36, 0, 255];
    let bytes = sheet_of([2, 1, 2, 0], 3, &[&[start], &[settled]]);
    for ticks in 0..=60 {
        let mut monitor = fresh(&bytes);
        assert_eq!(monitor.offer(0, 100), scheduled(1, 100));
        let expected = match ticks {
            0..=36 => scheduled(1, 136),
            _ => Answer::Dropped,
        };
        assert_eq!(monitor.offer(1, 100 + ticks), expected, "{ticks}");
    }
}

/// The cap that the largest bound needs is enough, whatever the bounds are.
#[test]
fn readings_above_all_bounds_act_alike() {
    let mut large = 0;
    for (automaton, input) in inputs(40) {
        let lines = desk::run(&input);
        assert_eq!(run_with::<Now>(&input), lines);
        if largest(&automaton) > EARLIER_MOST {
            assert_eq!(run_with::<Far>(&input), lines);
            large += 1;
        }
    }
    assert!(large >= 200, "{large}");
}
