//! The random kinds have the bounds from 31 to 40 as often as others, and calls
//! while readings are there, so that programs with other bounds are found.

#[path = "common/capped.rs"]
mod capped;
mod common;

use capped::Capped;
use common::{automata, first_call, fresh};
use host::bounds::{count, missing};
use host::desk::{self, run_with, CALL, COLLECTION};
use host::fast::Monitor;
use host::generate::{kind_named, Kind, BLOCK, EARLIER_MOST, KINDS};
use host::limits::MAX_BOUND;
use host::loading::Loading;
use host::sheet::{Automaton, HEADER, PAIR, RULE, UNBOUNDED};
use host::tally::Tally;

/// The kinds whose sheets are drawn and load.
const DRAWN: [&str; 13] = [
    "one_clock",
    "two_clocks",
    "deadlines",
    "bound_edges",
    "long_pending",
    "long_two_clocks",
    "dated_lists",
    "full_schedule",
    "full_sheet",
    "late",
    "bad_calls",
    "many_calls",
    "whole_blocks",
];

/// The bounds of an automaton's guards. A low of 0 is none.
fn bounds_of(automaton: &Automaton) -> Vec<u8> {
    let guards = automaton.outgoing.iter().flatten().flat_map(|it| it.guards);
    let bounds = guards.flat_map(|guard| [Some(guard.low).filter(|low| *low > 0), guard.high]);
    bounds.flatten().collect()
}

/// How many of the automata have each bound.
fn counts(automata: &[(usize, Automaton)]) -> Vec<usize> {
    let has = |bound| move |it: &&(usize, Automaton)| bounds_of(&it.1).contains(&bound);
    let count = |bound| automata.iter().filter(has(bound)).count();
    (0..=MAX_BOUND).map(count).collect()
}

/// Among bounds up to 30, those from 15 to 24 are in no range of small ones or of
/// such near 30: only where any bound may come.
fn ordinary(counts: &[usize]) -> usize {
    counts[15..25].iter().sum::<usize>() / 10
}

#[test]
fn bounds_above_30_are_as_common_as_others() {
    let mut all = vec![0; usize::from(MAX_BOUND) + 1];
    for name in DRAWN {
        let counts = counts(&automata(name));
        let large = &counts[usize::from(EARLIER_MOST) + 1..];
        let least = ordinary(&counts) * 3 / 4;
        assert!(least >= 15, "{name}: {counts:?}");
        assert!(large.iter().all(|it| *it >= least), "{name}: {counts:?}");
        for (sum, count) in all.iter_mut().zip(counts) {
            *sum += count;
        }
    }
    let large = &all[usize::from(EARLIER_MOST) + 1..];
    assert!(large.iter().all(|it| *it >= ordinary(&all)), "{all:?}");
    // The largest now comes about as often as the one that was the largest.
    let (last, earlier) = (all[usize::from(MAX_BOUND)], all[usize::from(EARLIER_MOST)]);
    assert!(last * 4 >= earlier * 3, "{all:?}");
}

#[test]
fn largest_bounds_of_sheets() {
    let (mut earlier, mut next, mut last) = (0, 0, 0);
    for name in DRAWN {
        for (_, automaton) in automata(name) {
            let bounds = bounds_of(&automaton);
            let largest = bounds.iter().max();
            earlier += u32::from(largest == Some(&EARLIER_MOST));
            next += u32::from(bounds.contains(&(EARLIER_MOST + 1)));
            last += u32::from(largest == Some(&MAX_BOUND));
        }
    }
    let counts = [earlier, next, last];
    assert!(counts.iter().all(|count| *count >= 200), "{counts:?}");
}

/// Calls while a clock reads 31 to 40, the next, and more.
fn readings(input: &[u8]) -> [u32; 3] {
    let (bytes, calls) = desk::split(input).expect("there is a sheet");
    let mut monitor = fresh(bytes);
    let clocks = usize::from(monitor.automaton().clocks);
    let mut counts = [0; 3];
    for call in calls.chunks_exact(CALL).take(BLOCK) {
        let (date, reached) = (desk::date_of(call), monitor.reached());
        let now = reached.wait_until(date.max(reached.date));
        let readings = now.expect("dates do not fall").configuration.valuation;
        for reading in readings.into_iter().take(clocks) {
            match reading {
                0..=30 => {}
                31..=40 => counts[0] += 1,
                41 => counts[1] += 1,
                _ => counts[2] += 1,
            }
        }
        match call[0] {
            COLLECTION => monitor.collect(date),
            action => monitor.offer(action, date),
        };
    }
    counts
}

#[test]
fn readings_above_30_are_met() {
    for name in DRAWN {
        let kind = kind_named(name).expect("the kind exists");
        let mut sums = [0; 3];
        for seed in 0..ENOUGH {
            let counts = readings(&kind.input(seed));
            sums.iter_mut().zip(counts).for_each(|(sum, it)| *sum += it);
        }
        let least = match name {
            "bound_edges" => [1000, 150, 1000],
            // Most of its calls are about the last date.
            "late" => [50, 0, 1000],
            _ => [150, 5, 300],
        };
        let mut pairs = sums.iter().zip(least);
        assert!(pairs.all(|(sum, least)| *sum >= least), "{name}: {sums:?}");
    }
}

/// Seeds of each kind among which all that is needed must come.
const ENOUGH: u64 = 100;

/// The inputs of all kinds.
fn inputs() -> impl Iterator<Item = Vec<u8>> {
    let of_kind = |kind: &'static Kind| (0..ENOUGH).map(|seed| kind.input(seed));
    KINDS.iter().flat_map(of_kind)
}

#[test]
fn all_that_is_needed_comes() {
    assert_eq!(missing(&Tally::default()).len(), 2);
    for loading in [Loading::AtZero, Loading::AtDate] {
        let mut tally = Tally::default();
        for kind in KINDS {
            for seed in 0..ENOUGH {
                count(&mut tally, loading, &kind.input_as(loading, seed));
            }
        }
        assert!(missing(&tally).is_empty());
        for (name, least) in [
            ("sheet loaded, with a bound of 31 to 40", 400),
            ("sheet refused I-5, for a bound of 41", 8),
        ] {
            let found = tally.count(name);
            assert!(found >= least, "{name} only {found} times");
        }
    }
}

// Wrong programs.

/// The lines for a sheet with its bounds changed.
fn with_bounds(input: &[u8], change: fn(u8) -> u8) -> String {
    let mut changed = input.to_vec();
    if let Some((sheet, _)) = desk::split(input) {
        let start = 2 + HEADER + PAIR * sheet.first().map_or(0, |count| usize::from(*count));
        let rules = changed.get_mut(start..2 + sheet.len());
        for rule in rules.into_iter().flat_map(|it| it.chunks_exact_mut(RULE)) {
            rule[3..].iter_mut().for_each(|it| *it = change(*it));
        }
    }
    run_with::<Monitor>(&changed)
}

/// Bounds above 30 are refused.
fn still_refused(input: &[u8]) -> String {
    with_bounds(input, |bound| match bound {
        31.. if bound != UNBOUNDED => 254,
        _ => bound,
    })
}

/// The largest bound is refused.
fn largest_refused(input: &[u8]) -> String {
    with_bounds(input, |bound| if bound == 40 { 254 } else { bound })
}

/// The next bound is taken for the largest.
fn next_taken(input: &[u8]) -> String {
    with_bounds(input, |bound| if bound == 41 { 40 } else { bound })
}

/// Readings are capped at a number, where the sheet loads.
fn capped_at<const CAP: usize>(input: &[u8]) -> String {
    // Long inputs show no more.
    let end = first_call(input) + CALL * BLOCK;
    run_with::<Capped<CAP>>(&input[..end.min(input.len())])
}

/// A wrong program: its name, its lines, and how many inputs must show it.
type Program = (&'static str, fn(&[u8]) -> String, usize);

const WRONG: &[Program] = &[
    ("31 refused", still_refused, 400),
    ("40 refused", largest_refused, 200),
    ("41 taken", next_taken, 8),
    ("capped at 30", capped_at::<30>, 200),
    ("capped at 31", capped_at::<31>, 200),
    ("capped at 32", capped_at::<32>, 200),
    ("capped at 39", capped_at::<39>, 50),
    ("capped at 40", capped_at::<40>, 20),
];

#[test]
fn wrong_programs_are_seen() {
    let mut seen = vec![0; WRONG.len()];
    for input in inputs().filter(|input| input.len() > 2) {
        let right = run_with::<Monitor>(&input);
        for (count, (_, wrong, _)) in seen.iter_mut().zip(WRONG) {
            *count += usize::from(!right.starts_with(&wrong(&input)));
        }
    }
    for (count, (name, _, least)) in seen.into_iter().zip(WRONG) {
        assert!(count >= *least, "{name}: only {count} inputs differ");
    }
}
