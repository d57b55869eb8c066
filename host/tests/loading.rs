//! Boxes that are loaded at a date: document 01's keys moved there, clocks and
//! dates that start there, and the dates that are refused.

mod common;

use common::{input, input_at, loaded, refused, run_of, scheduled, sheet_of, COLLECT};
use host::course::{A, B, C, D, E};
use host::desk::{self, CALL};
use host::generate::KINDS;
use host::limits::{LAST_DATE, MAX_PENDING};
use host::loading::Loading;
use host::monitor::{Answer, Monitor};
use host::refusal::Refusal;
use host::runs::{beginning, satisfies};
use host::sets::CAP;
use host::{fast, sheet};

/// The lines of an input with a loading date; both boxes give the same.
fn lines_at(input: &[u8]) -> String {
    let lines = desk::run_at(input);
    let fast = desk::run_as::<fast::Monitor>(Loading::AtDate, input);
    assert_eq!(lines, fast);
    lines
}

/// A line with its dates so many ticks later.
fn later(line: &str, ticks: u32) -> String {
    let mut words: Vec<String> = line.split(' ').map(String::from).collect();
    let places: &[usize] = match words.get(1).map(String::as_str) {
        Some("scheduled") => &[3],
        Some("played") => &[3, 5],
        _ => &[],
    };
    for place in places {
        let date: u32 = words[*place].parse().expect("a date");
        words[*place] = (date + ticks).to_string();
    }
    words.join(" ")
}

/// Lines with all dates so many ticks later.
fn all_later(lines: &str, ticks: u32) -> String {
    let moved = lines.lines().map(|line| later(line, ticks) + "\n");
    moved.collect()
}

/// A sheet and calls on its box.
type Question = (&'static [u8], Vec<(u8, u32)>);

/// P1 to P10, those that begin with "then" with the ones before.
fn keyed() -> Vec<Question> {
    let mut seventeen = vec![(0, 0); 18];
    seventeen[17] = (1, 0);
    vec![
        (A, vec![(1, 4), (1, 5), (0, 6), (1, 6)]),
        (B, vec![(1, 0)]),
        (B, vec![(0, 3), (1, 5), (0, 5)]),
        (C, vec![(0, 5), (COLLECT, 8), (1, 8)]),
        (C, vec![(0, 5), (COLLECT, 9), (1, 9)]),
        (D, vec![(0, 2), (1, 3)]),
        (E, seventeen),
    ]
}

#[test]
fn keys_at_other_dates() {
    for (sheet, mut calls) in keyed() {
        // These show all dates.
        calls.extend([(COLLECT, 20); 18]);
        let lines = desk::run(&input(sheet, &calls));
        for date in [0, 1, 8, 30, 31, 40, 41, 43_200, 999_999_900, LAST_DATE - 20] {
            let moved = calls.iter().map(|(first, at)| (*first, at + date));
            let moved: Vec<(u8, u32)> = moved.collect();
            let found = lines_at(&input_at(date, sheet, &moved));
            assert_eq!(found, all_later(&lines, date), "at {date}");
        }
    }
}

/// P5, P7 and P9, written out.
#[test]
fn some_keys_at_midday() {
    let noon = 43_200;
    let mut monitor = loaded(B, noon);
    assert_eq!(monitor.offer(0, noon + 3), Answer::Held(1));
    assert_eq!(monitor.offer(1, noon + 5), scheduled(2, 43_215));
    assert!(monitor.lamp());
    let mut monitor = loaded(C, noon);
    assert_eq!(monitor.offer(0, noon + 5), Answer::Held(1));
    assert_eq!(monitor.collect(noon + 8), Answer::Nothing);
    assert!(!monitor.lamp());
    assert_eq!(monitor.offer(1, noon + 8), scheduled(2, 43_208));
    let mut monitor = loaded(D, noon);
    assert_eq!(monitor.offer(0, noon + 2), Answer::Held(1));
    assert_eq!(monitor.offer(1, noon + 3), scheduled(2, 43_210));
    assert_eq!(common::dates(&monitor), [43_203, 43_210]);
}

/// No correction takes longer.
const LONGEST: u32 = CAP as u32 * (MAX_PENDING as u32 + 1);

/// An input moved to a loading date; `None` if a date would get past the last.
fn moved(plain: &[u8], ticks: u32) -> Option<Vec<u8>> {
    let (_, calls) = desk::split(plain)?;
    let (front, calls) = plain.split_at(plain.len() - calls.len());
    let mut input = [&ticks.to_le_bytes(), front].concat();
    let calls = calls.chunks_exact(CALL);
    let tail = calls.remainder();
    for call in calls {
        let date = desk::date_of(call);
        // No list waits for longer, and no call above the last date gets below it.
        if date <= LAST_DATE && date > LAST_DATE - ticks - LONGEST {
            return None;
        }
        input.push(call[0]);
        input.extend(date.saturating_add(ticks).to_le_bytes());
    }
    input.extend(tail);
    Some(input)
}

/// Whatever the sheet and the calls are, only the dates change.
#[test]
fn generated_inputs_at_other_dates() {
    let mut checked = 0;
    for kind in KINDS {
        for seed in 0..30 {
            let plain = kind.input(seed);
            let lines = desk::run(&plain);
            for ticks in [1, 17, 500_000_000] {
                if let Some(input) = moved(&plain, ticks) {
                    let name = kind.name;
                    assert_eq!(
                        desk::run_at(&input),
                        all_later(&lines, ticks),
                        "{name} {seed}"
                    );
                    checked += 1;
                }
            }
        }
    }
    assert!(checked >= 1200, "{checked}");
}

#[test]
fn date_0_is_the_plain_program() {
    for kind in KINDS {
        for seed in 0..20 {
            let plain = kind.input(seed);
            let dated = [&[0; 4], plain.as_slice()].concat();
            assert_eq!(desk::run_at(&dated), desk::run(&plain));
        }
    }
}

/// One location in which command 0 may come at readings from a low to a high.
fn between(low: u8, high: u8) -> Vec<u8> {
    sheet_of([1, 1, 1, 0], 1, &[&[[0, 0, 0, low, high, 0, 255]]])
}

/// Counted from date 0 these clocks would be past their bounds, and the lamp lit
/// from the start.
#[test]
fn clocks_count_from_the_loading_date() {
    for date in [1, 31, 41, 43_200, LAST_DATE - 41] {
        for high in [0, 1, 30, 31, 40] {
            let sheet = between(0, high);
            let end = date + u32::from(high);
            let mut monitor = loaded(&sheet, date);
            assert!(!monitor.lamp());
            assert_eq!(monitor.collect(end), Answer::Nothing);
            assert!(!monitor.lamp());
            assert_eq!(monitor.clone().offer(0, end), scheduled(1, end));
            assert_eq!(monitor.collect(end + 1), Answer::Nothing);
            assert!(monitor.lamp());
            assert_eq!(monitor.offer(0, end + 1), Answer::Dropped);
        }
        // A low is waited for.
        let mut monitor = loaded(&between(40, 40), date);
        assert_eq!(monitor.offer(0, date), scheduled(1, date + 40));
    }
}

#[test]
fn both_clocks_count_from_the_loading_date() {
    let rule = |low_1, high_1, low_2, high_2| [0, 0, 2, low_1, high_1, low_2, high_2];
    let sheet = sheet_of([1, 2, 1, 0], 1, &[&[rule(3, 7, 0, 5)]]);
    let calls = [(0, 1000), (0, 1001), (0, 1007), (0, 1008)];
    let lines = lines_at(&input_at(1000, &sheet, &calls));
    // Clock 2 is reset, clock 1 is not.
    let expected = "sheet 1 2 1 1 1\n\
        1 scheduled 1 1003 lamp 0\n\
        2 scheduled 1 1003 lamp 0\n\
        3 scheduled 1 1007 lamp 0\n\
        4 dropped lamp 1\n";
    assert_eq!(lines, expected);
}

#[test]
fn a_fresh_box_has_its_loading_date() {
    for date in [0, 1, 43_200, LAST_DATE] {
        let mut monitor = loaded(A, date);
        let automaton = sheet::read(A).expect("the sheet loads");
        assert_eq!(monitor, Monitor::new(automaton.clone(), date));
        assert_eq!(monitor.date(), date);
        // The last scheduled date, and where clocks read 0.
        assert_eq!(monitor.reached(), beginning(&automaton, date));
        assert_eq!(monitor.reached().date, date);
        assert!(monitor.pending().is_empty() && monitor.history().is_empty());
        assert_eq!(monitor.offer(1, date), scheduled(1, date));
        assert!(satisfies(&automaton, date, &run_of(&monitor)));
    }
}

#[test]
fn calls_before_the_loading_date() {
    let date = 43_200;
    for early in [0, 1, 8, date - 1] {
        for first in [0, 1, COLLECT] {
            let lines = lines_at(&input_at(date, C, &[(first, early), (0, date)]));
            let expected = "sheet 3 1 2 2 1\n1 refused S-1 lamp 0\n2 held 1 lamp 0\n";
            assert_eq!(lines, expected);
        }
        // I-7 comes first.
        let lines = lines_at(&input_at(date, C, &[(2, early)]));
        assert!(lines.ends_with("\n1 refused I-7 lamp 0\n"));
    }
}

/// A refused call shows the lamp of the fresh box.
#[test]
fn the_lamp_of_a_fresh_box() {
    for (sheet, lamp) in [(between(0, 5), 0), (sheet_of([1, 1, 1, 0], 1, &[&[]]), 1)] {
        let lines = lines_at(&input_at(100, &sheet, &[(COLLECT, 99), (0, LAST_DATE + 1)]));
        assert!(lines.contains(&format!("\n1 refused S-1 lamp {lamp}\n")));
        assert!(lines.ends_with(&format!("\n2 refused I-8 lamp {lamp}\n")));
    }
}

#[test]
fn loading_dates_around_the_limit() {
    let first = |date| {
        let lines = lines_at(&input_at(date, A, &[(0, LAST_DATE)]));
        lines.lines().next().unwrap_or_default().to_string()
    };
    for date in [0, 999_999_999, 1_000_000_000] {
        assert_eq!(first(date), "sheet 2 1 2 4 2");
        assert!(sheet::load(A, date).is_ok());
    }
    for date in [1_000_000_001, 1 << 31, u32::MAX] {
        assert_eq!(first(date), "sheet refused I-8");
        assert_eq!(sheet::load(A, date), Err(Refusal::I8));
        // No line follows.
        let lines = lines_at(&input_at(date, A, &[(0, date), (COLLECT, 0)]));
        assert_eq!(lines, "sheet refused I-8\n");
    }
}

#[test]
fn a_box_loaded_at_the_limit() {
    let mut monitor = loaded(A, LAST_DATE);
    assert_eq!(monitor.collect(LAST_DATE - 1), refused(Refusal::S1));
    assert_eq!(monitor.collect(LAST_DATE + 1), refused(Refusal::I8));
    assert_eq!(monitor.offer(1, LAST_DATE), scheduled(1, LAST_DATE));
    assert_eq!(monitor.offer(1, LAST_DATE), refused(Refusal::S2));
    assert!(!monitor.lamp());
    // A correction of two ends too late.
    let mut monitor = loaded(D, LAST_DATE);
    assert_eq!(monitor.offer(0, LAST_DATE), Answer::Held(1));
    assert_eq!(monitor.offer(1, LAST_DATE), refused(Refusal::S2));
    let mut monitor = loaded(D, LAST_DATE - 10);
    assert_eq!(monitor.offer(0, LAST_DATE - 9), Answer::Held(1));
    assert_eq!(monitor.offer(1, LAST_DATE - 8), scheduled(2, LAST_DATE));
}

/// A sheet for each reason against it.
fn refused_sheets() -> Vec<(Vec<u8>, Refusal)> {
    let with = |at: usize, byte: u8| {
        let mut sheet = A.to_vec();
        sheet[at] = byte;
        sheet
    };
    let meeting = [[0, 0, 0, 0, 5, 0, 255], [0, 0, 0, 5, 255, 0, 255]];
    vec![
        (A[..5].to_vec(), Refusal::I1),
        (vec![0; 519], Refusal::I1),
        (with(1, 3), Refusal::I2),
        (with(3, 2), Refusal::I3),
        (with(6, 15), Refusal::I4),
        (with(14, 2), Refusal::I5),
        (sheet_of([1, 1, 1, 0], 1, &[&meeting]), Refusal::I6),
    ]
}

#[test]
fn the_sheet_is_refused_before_its_date() {
    for (sheet, refusal) in refused_sheets() {
        for date in [0, LAST_DATE, LAST_DATE + 1, u32::MAX] {
            assert_eq!(sheet::load(&sheet, date), Err(refusal));
            let lines = lines_at(&input_at(date, &sheet, &[(0, date)]));
            assert_eq!(lines, format!("sheet refused {refusal}\n"));
        }
    }
}

#[test]
fn inputs_that_end_early() {
    for date in [0, 43_200, u32::MAX] {
        let whole = input_at(date, A, &[]);
        for length in 0..whole.len() {
            assert_eq!(lines_at(&whole[..length]), "sheet refused I-1\n");
        }
    }
    let whole = input_at(7, A, &[(0, 7)]);
    let lines = lines_at(&whole[..whole.len() - 1]);
    assert_eq!(lines, "sheet 2 1 2 4 2\ntail 4\n");
}

#[test]
fn dates_have_the_low_byte_first() {
    let loading = Loading::AtDate;
    let bytes = [1, 2, 3, 4, 5];
    assert_eq!(loading.split(&bytes), Some((0x0403_0201, &[5][..])));
    assert_eq!(loading.split(&bytes[..3]), None);
    assert_eq!(Loading::AtZero.split(&bytes), Some((0, &bytes[..])));
}
