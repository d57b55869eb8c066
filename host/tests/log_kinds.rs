//! Random logs and the comparison of converters: the kinds show what they are
//! there for, and every wrong converter is found.

use host::log::compare::{compare, Summary};
use host::log::{
    convert, kind_named, reason, records, sound, Case, Converter, Format, Record, Refused, KINDS,
    RECORD,
};
use host::refusal::Refusal;
use std::fs;

const LIMIT: u32 = 1_000_000_000;

/// Seeds of each kind over which occurrences are counted.
const SEEDS: u64 = 400;

fn cases(name: &str) -> Vec<Case> {
    let kind = kind_named(name).expect("the kind exists");
    (0..SEEDS).map(|seed| kind.case(seed)).collect()
}

fn answer(case: &Case) -> Result<(), Refused> {
    convert(case.from, &case.log, &mut case.output.clone())
}

/// How many cases of a kind are so.
fn count(name: &str, is_so: impl Fn(&Case) -> bool) -> usize {
    cases(name).iter().filter(|case| is_so(case)).count()
}

fn refused_with(case: &Case, reason: Refusal) -> bool {
    answer(case).is_err_and(|refused| refused.reason() == reason)
}

#[test]
fn cases_depend_on_kind_and_seed_alone() {
    for kind in KINDS {
        assert_eq!(kind.case(7), kind.case(7));
        assert!((0..20).any(|seed| kind.case(seed) != kind.case(seed + 1)));
        assert!(kind_named(kind.name).is_some_and(|found| found.name == kind.name));
    }
    assert!(kind_named("no_such_kind").is_none());
}

/// Neighbouring records that have the same date.
fn still(case: &Case) -> usize {
    let records = records(&case.log);
    match case.from {
        Format::Dates => records
            .windows(2)
            .filter(|pair| pair[0].ticks == pair[1].ticks)
            .count(),
        Format::Gaps => records.iter().filter(|record| record.ticks == 0).count(),
    }
}

#[test]
fn accepted_logs() {
    for (name, from) in [("dates", Format::Dates), ("gaps", Format::Gaps)] {
        let all = cases(name);
        assert!(all
            .iter()
            .all(|case| case.from == from && answer(case).is_ok()));
        let count: usize = all.iter().map(|case| case.log.len() / RECORD).sum();
        assert!(count > 8000);
        assert!(all.iter().map(still).sum::<usize>() > count / 4);
        assert!(all.iter().any(|case| case.log.is_empty()));
        let actions = all.iter().flat_map(|case| records(&case.log));
        let mut seen = [false; 256];
        actions.for_each(|record| seen[usize::from(record.action)] = true);
        assert_eq!(seen, [true; 256]);
    }
}

#[test]
fn damaged_logs() {
    assert!(count("damaged", |case| answer(case).is_ok()) > 80);
    for (reason, least) in [(Refusal::I9, 80), (Refusal::I10, 20), (Refusal::I11, 40)] {
        assert!(
            count("damaged", |case| refused_with(case, reason)) > least,
            "{reason}"
        );
    }
}

#[test]
fn short_lengths() {
    let all = cases("short_lengths");
    for length in 0..=24 {
        for from in [Format::Dates, Format::Gaps] {
            let is_it = |case: &&Case| case.log.len() == length && case.from == from;
            assert_eq!(all.iter().filter(is_it).count(), 8);
            // 50 seeds have them all.
            assert!(all[..50].iter().any(|case| is_it(&case)));
        }
    }
    assert!(count("short_lengths", |case| answer(case).is_ok()) > 20);
}

#[test]
fn near_the_limit() {
    for from in [Format::Dates, Format::Gaps] {
        let ends = |date: u32| {
            count("near_limit", |case| {
                let mut output = case.log.clone();
                let accepted = convert(case.from, &case.log, &mut output).is_ok();
                let dates = if from == Format::Dates {
                    &case.log
                } else {
                    &output
                };
                let last = records(dates).last().map(|record| record.ticks);
                case.from == from && accepted && last == Some(date)
            })
        };
        assert!(ends(LIMIT) > 15 && ends(LIMIT - 1) > 10);
        let late = |case: &Case| case.from == from && refused_with(case, Refusal::I10);
        assert!(count("near_limit", late) > 40);
    }
}

/// Sums that would be accepted if 32 bits were all there is.
#[test]
fn near_the_end_of_32_bits() {
    let wraps = |case: &Case| {
        let Err(Refused::Late(place)) = answer(case) else {
            return false;
        };
        let ticks = records(&case.log).into_iter().map(|record| record.ticks);
        let sum = ticks.take(place + 1).fold(0, u32::wrapping_add);
        case.from == Format::Gaps && sum <= LIMIT
    };
    assert!(count("near_wrap", wraps) > 50);
    let late = |case: &Case| case.from == Format::Dates && refused_with(case, Refusal::I10);
    assert!(count("near_wrap", late) > 50);
}

#[test]
fn outputs_of_another_length() {
    let shorter = |case: &Case| case.output.len() < case.log.len();
    let longer = |case: &Case| case.output.len() > case.log.len();
    let ragged = |case: &Case| !case.log.len().is_multiple_of(RECORD);
    let same = |case: &Case| ragged(case) && case.output.len() == case.log.len();
    let empty = |case: &Case| case.output.is_empty() && !case.log.is_empty();
    assert!(count("other_output", shorter) > 80);
    assert!(count("other_output", longer) > 80);
    assert!(count("other_output", empty) > 20);
    assert!(count("other_output", same) > 3);
    // These have another fault too, which comes later.
    let late = |case: &Case| {
        let whole = case.log.len() / RECORD;
        refused_with(case, Refusal::I9) && sound(case.from, &case.log) < whole
    };
    assert!(count("other_output", late) > 20);
}

#[test]
fn faults_among_records() {
    assert!(count("falling", |case| refused_with(case, Refusal::I11)) > 300);
    let one = |case: &Case| {
        let records = records(&case.log);
        let fall = |pair: &[Record]| pair[0].ticks.checked_sub(pair[1].ticks) == Some(1);
        records.windows(2).any(fall)
    };
    assert!(count("falling", one) > 80);
    for reason in [Refusal::I10, Refusal::I11] {
        assert!(count("many_faults", |case| refused_with(case, reason)) > 60);
    }
    // A later fault has the other reason.
    let other = |case: &Case, first: Refusal| {
        let place = answer(case).err().and_then(Refused::place);
        let later = place.map_or(&[][..], |place| &case.log[RECORD * (place + 1)..]);
        let fitting = convert(case.from, later, &mut later.to_vec());
        refused_with(case, first) && fitting.is_err_and(|refused| refused.reason() != first)
    };
    assert!(count("many_faults", |case| other(case, Refusal::I10)) > 10);
    assert!(count("many_faults", |case| other(case, Refusal::I11)) > 10);
}

#[test]
fn long_logs() {
    assert!(cases("long")
        .iter()
        .all(|case| case.log.len() >= 2000 * RECORD));
    assert!(count("long", |case| answer(case).is_ok()) > 200);
    assert!(
        count("long", |case| sound(case.from, &case.log) + 3
            >= case.log.len() / RECORD)
            > 390
    );
}

/// What converts, and what it does otherwise than it should.
struct Wrong {
    convert: fn(Format, &[u8], &mut [u8]) -> i32,
    sound: fn(Format, &[u8]) -> usize,
}

impl Converter for Wrong {
    fn convert(&self, from: Format, log: &[u8], output: &mut [u8]) -> i32 {
        (self.convert)(from, log, output)
    }

    fn sound(&self, format: Format, log: &[u8]) -> usize {
        (self.sound)(format, log)
    }
}

/// The number that stands for an answer.
fn number(answer: Result<(), Refused>) -> i32 {
    match answer {
        Ok(()) => 0,
        Err(Refused::Length) => -9,
        Err(Refused::Late(_)) => -10,
        Err(Refused::Falling(_)) => -11,
    }
}

fn right(from: Format, log: &[u8], output: &mut [u8]) -> i32 {
    number(convert(from, log, output))
}

fn has_wrong_length(log: &[u8], output: &[u8]) -> bool {
    !log.len().is_multiple_of(RECORD) || log.len() != output.len()
}

/// A log whose ticks are changed.
fn changed(log: &[u8], change: impl Fn(usize, u32) -> u32) -> Vec<u8> {
    let records = records(log).into_iter().enumerate();
    let bytes = records.flat_map(|(place, record)| {
        let ticks = change(place, record.ticks);
        Record { ticks, ..record }.bytes()
    });
    bytes.collect()
}

/// Compares all kinds for as many seeds as must show every answer.
fn compare_all(converter: &Wrong) -> Result<Summary, String> {
    compare(converter, KINDS, 0, 100).map_err(|difference| {
        // Another test may have found the same log and removed it.
        let _ = difference.log.as_ref().map(fs::remove_file);
        difference.to_string()
    })
}

#[test]
fn right_converter_shows_every_answer() {
    let convert = right;
    let summary = compare_all(&Wrong { convert, sound }).expect("there is no difference");
    assert_eq!(summary.logs, 100 * KINDS.len() as u64);
    assert_eq!(summary.missing(), [""; 0]);
    let names = ["dates to gaps: ", "gaps to dates: "];
    for (way, answers) in names.into_iter().zip([4, 3]) {
        for answer in &["converted", "I-9", "I-10", "I-11"][..answers] {
            let count = summary.count(&format!("{way}{answer}"));
            assert!(count > 50, "{way}{answer}: {count}");
        }
    }
    let text = summary.to_string();
    let start = format!(
        "no difference: {} logs, {} records\n",
        summary.logs, summary.records
    );
    assert!(text.starts_with(&start), "{text}");
    assert_eq!(text.lines().count(), 8);
}

#[test]
fn missing_answers_are_named() {
    let convert = right;
    let kinds = kind_named("dates").into_iter();
    let summary = compare(&Wrong { convert, sound }, kinds, 5, 30).expect("no difference");
    let expected = [
        "dates to gaps: I-9",
        "dates to gaps: I-10",
        "dates to gaps: I-11",
        "gaps to dates: converted",
        "gaps to dates: I-9",
        "gaps to dates: I-10",
    ];
    assert_eq!(summary.missing(), expected);
    assert_eq!(summary.count("dates to gaps: converted"), 30);
}

/// Requires that a difference is found, and what it tells.
fn require_found(convert: fn(Format, &[u8], &mut [u8]) -> i32, problem: &str) {
    let text = compare_all(&Wrong { convert, sound }).expect_err("it is wrong");
    assert!(text.starts_with("difference: kind "), "{text}");
    assert!(text.contains(problem), "{text}");
    assert!(text.contains("\n  expected: ") && text.contains("\n  found:    "));
}

#[test]
fn first_gap_from_the_first_date() {
    let wrong = |from, log: &[u8], output: &mut [u8]| {
        let result = right(from, log, output);
        if result == 0 && from == Format::Dates {
            output.copy_from_slice(&changed(
                output,
                |place, gap| if place == 0 { 0 } else { gap },
            ));
        }
        result
    };
    require_found(wrong, "of the output is 0, not ");
}

#[test]
fn sums_that_wrap() {
    let wrong = |from, log: &[u8], output: &mut [u8]| {
        let result = right(from, log, output);
        let mut date = 0u32;
        let mut within = |record: Record| {
            date = date.wrapping_add(record.ticks);
            date <= LIMIT
        };
        let all = from == Format::Gaps && records(log).into_iter().all(&mut within);
        if all && result == -10 {
            0
        } else {
            result
        }
    };
    require_found(wrong, "expected: refused with I-10");
}

#[test]
fn equal_dates_refused() {
    let wrong = |from, log: &[u8], output: &mut [u8]| {
        let equal = records(log)
            .windows(2)
            .any(|pair| pair[0].ticks == pair[1].ticks);
        match number(convert(from, log, &mut output.to_vec())) {
            0 if equal && from == Format::Dates => -11,
            _ => right(from, log, output),
        }
    };
    require_found(wrong, "found:    refused with I-11");
}

#[test]
fn output_written_before_the_fault() {
    let wrong = |from, log: &[u8], output: &mut [u8]| {
        let result = right(from, log, output);
        if result < -9 {
            let end = RECORD * sound(from, log);
            right(from, &log[..end], &mut output[..end]);
        }
        result
    };
    require_found(wrong, "of the output is ");
}

#[test]
fn high_byte_first() {
    let wrong = |from, log: &[u8], output: &mut [u8]| {
        if has_wrong_length(log, output) {
            return -9;
        }
        let mut turned = changed(log, |_, ticks| ticks.swap_bytes());
        let result = right(from, &turned.clone(), &mut turned);
        if result == 0 {
            output.copy_from_slice(&changed(&turned, |_, ticks| ticks.swap_bytes()));
        }
        result
    };
    require_found(wrong, "the results differ");
}

#[test]
fn actions_dropped() {
    let wrong = |from, log: &[u8], output: &mut [u8]| {
        let result = right(from, log, output);
        if result == 0 {
            output
                .iter_mut()
                .skip(4)
                .step_by(RECORD)
                .for_each(|action| *action = 0);
        }
        result
    };
    require_found(wrong, "byte 4 of the output is 0, not ");
}

#[test]
fn lengths_not_looked_at() {
    let longer = |from, log: &[u8], output: &mut [u8]| match output.get_mut(..log.len()) {
        Some(output) => right(from, log, output),
        None => -9,
    };
    require_found(longer, "expected: refused with I-9");
    let ragged = |from, log: &[u8], output: &mut [u8]| {
        let whole = log.len() / RECORD * RECORD;
        match log.len() == output.len() {
            true => right(from, &log[..whole], &mut output[..whole]),
            false => -9,
        }
    };
    require_found(ragged, "expected: refused with I-9");
}

#[test]
fn length_tested_last() {
    let wrong = |from, log: &[u8], output: &mut [u8]| {
        let whole = log.len() / RECORD * RECORD;
        match number(convert(from, &log[..whole], &mut log[..whole].to_vec())) {
            0 => right(from, log, output),
            fault => fault,
        }
    };
    require_found(wrong, "expected: refused with I-9");
}

#[test]
fn limit_beside_its_place() {
    let late = |from, log: &[u8], output: &mut [u8]| {
        let result = right(from, log, output);
        let date = records(log).last().map(|record| record.ticks);
        let only = sound(from, log) + 1 == log.len() / RECORD;
        let one_more = from == Format::Dates && only && date == Some(LIMIT + 1);
        if result == -10 && one_more {
            0
        } else {
            result
        }
    };
    require_found(late, "expected: refused with I-10");
    let early = |from, log: &[u8], output: &mut [u8]| {
        let dates = &mut log.to_vec();
        if from == Format::Gaps && !has_wrong_length(log, output) {
            let _ = convert(from, log, dates);
        }
        let last = records(dates).last().map(|record| record.ticks);
        match number(convert(from, log, &mut output.to_vec())) {
            0 if last == Some(LIMIT) => -10,
            _ => right(from, log, output),
        }
    };
    require_found(early, "found:    refused with I-10");
}

#[test]
fn last_fault_decides() {
    let wrong = |from, log: &[u8], output: &mut [u8]| match right(from, log, output) {
        -11 if records(log).iter().any(|record| record.ticks > LIMIT) => -10,
        result => result,
    };
    require_found(wrong, "found:    refused with I-10");
}

#[test]
fn places_one_off() {
    let convert = right;
    let sound = |format, log: &[u8]| match sound(format, log) {
        place if place < log.len() / RECORD => place + 1,
        all => all,
    };
    let text = compare_all(&Wrong { convert, sound }).expect_err("it is wrong");
    assert!(
        text.contains("the places of the first fault differ"),
        "{text}"
    );
}

#[test]
fn numbers_that_mean_nothing() {
    require_found(|_, _, _| 7, "found:    result 7; ");
    assert_eq!(reason(7), None);
    assert_eq!(reason(0), None);
    assert_eq!(reason(-10), Some(Refusal::I10));
}

/// The log that differs is at hand.
#[test]
fn differing_log_is_written() {
    let wrong = Wrong {
        convert: |_, _, _| -11,
        sound,
    };
    let difference = compare(&wrong, KINDS, 4711, 1).expect_err("it is wrong");
    assert_eq!((difference.kind, difference.seed), ("dates", 4711));
    let path = difference.log.as_ref().expect("the log was written");
    let written = fs::read(path).expect("the log can be read");
    fs::remove_file(path).expect("the log can be removed");
    assert_eq!(written, KINDS[0].case(4711).log);
    assert!(difference
        .to_string()
        .ends_with(&format!("log: {}", path.display())));
}
