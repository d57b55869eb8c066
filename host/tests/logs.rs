//! Logs in dates and in gaps: the conversion each way, and every refusal.

use host::log::{convert, records, sound, Format, Record, Refused, RECORD};
use host::refusal::Refusal;

use Format::{Dates, Gaps};

const LIMIT: u32 = 1_000_000_000;

/// The bytes that an output has before a call.
const BEFORE: u8 = 0xAA;

/// A log of ticks and actions.
fn log(records: &[(u32, u8)]) -> Vec<u8> {
    let bytes = |(ticks, action): &(u32, u8)| {
        let byte = |shift: u32| (ticks >> shift & 255) as u8;
        [byte(0), byte(8), byte(16), byte(24), *action]
    };
    records.iter().flat_map(bytes).collect()
}

/// A log of ticks, with actions that count from 7.
fn ticks(ticks: &[u32]) -> Vec<u8> {
    let records: Vec<(u32, u8)> = ticks.iter().copied().zip(7..).collect();
    log(&records)
}

/// Converts with an output of the log's length; a refusal must leave it.
fn converted(from: Format, log: &[u8]) -> Result<Vec<u8>, Refused> {
    let mut output = vec![BEFORE; log.len()];
    let result = convert(from, log, &mut output);
    if result.is_err() {
        assert_eq!(output, vec![BEFORE; log.len()]);
    }
    result.map(|()| output)
}

/// Requires that one log is the other, each way.
fn require_pair(dates: &[u8], gaps: &[u8]) {
    assert_eq!(converted(Dates, dates), Ok(gaps.to_vec()));
    assert_eq!(converted(Gaps, gaps), Ok(dates.to_vec()));
    assert_eq!(sound(Dates, dates), dates.len() / RECORD);
    assert_eq!(sound(Gaps, gaps), gaps.len() / RECORD);
}

/// Requires a refusal of a log with these ticks, whose place is known.
fn require_refused(from: Format, list: &[u32], refused: Refused) {
    assert_eq!(converted(from, &ticks(list)), Err(refused), "{list:?}");
    assert_eq!(Some(sound(from, &ticks(list))), refused.place());
}

/// Requires I-9 with an output of such a length, which stays as it was.
fn require_length(from: Format, log: &[u8], lent: usize) {
    let mut output = vec![BEFORE; lent];
    assert_eq!(convert(from, log, &mut output), Err(Refused::Length));
    assert_eq!(output, vec![BEFORE; lent]);
}

#[test]
fn records_are_four_bytes_low_first_and_the_action() {
    let bytes = [0x78, 0x56, 0x34, 0x12, 9];
    let (ticks, action) = (0x1234_5678, 9);
    assert_eq!(records(&bytes), [Record { ticks, action }]);
    assert_eq!(Record { ticks, action }.bytes(), bytes);
    assert_eq!(log(&[(ticks, action)]), bytes);
}

/// The timed word (1, a) (3, r) (1, r) of document 002, with a = 0 and r = 1.
#[test]
fn example_2_of_document_002() {
    let gaps = [1, 0, 0, 0, 0, 3, 0, 0, 0, 1, 1, 0, 0, 0, 1];
    let dates = [1, 0, 0, 0, 0, 4, 0, 0, 0, 1, 5, 0, 0, 0, 1];
    require_pair(&dates, &gaps);
}

#[test]
fn empty_log() {
    require_pair(&[], &[]);
}

#[test]
fn first_gap_counts_from_zero() {
    require_pair(&ticks(&[17]), &ticks(&[17]));
    require_pair(&ticks(&[0]), &ticks(&[0]));
    require_pair(&ticks(&[100, 130]), &ticks(&[100, 30]));
}

#[test]
fn equal_dates_are_gaps_of_zero() {
    require_pair(&ticks(&[0, 0, 0]), &ticks(&[0, 0, 0]));
    require_pair(&ticks(&[5, 5, 9, 9, 9]), &ticks(&[5, 0, 4, 0, 0]));
}

#[test]
fn gaps_over_byte_ends() {
    require_pair(&ticks(&[255, 256, 65_536]), &ticks(&[255, 1, 65_280]));
    require_pair(
        &ticks(&[65_535, 16_777_216, 16_777_217]),
        &ticks(&[65_535, 16_711_681, 1]),
    );
}

#[test]
fn last_date_is_taken() {
    require_pair(&ticks(&[LIMIT]), &ticks(&[LIMIT]));
    require_pair(&ticks(&[0, LIMIT, LIMIT]), &ticks(&[0, LIMIT, 0]));
    require_pair(
        &ticks(&[1, 999_999_999, LIMIT]),
        &ticks(&[1, 999_999_998, 1]),
    );
}

#[test]
fn one_more_is_not() {
    for from in [Dates, Gaps] {
        require_refused(from, &[LIMIT + 1], Refused::Late(0));
        require_refused(from, &[0, LIMIT + 1], Refused::Late(1));
    }
    require_refused(Dates, &[LIMIT, LIMIT + 1], Refused::Late(1));
    require_refused(Gaps, &[LIMIT, 1], Refused::Late(1));
    require_refused(Gaps, &[LIMIT, 0, 1, 0], Refused::Late(2));
    require_refused(Gaps, &[500_000_000, 500_000_001], Refused::Late(1));
}

#[test]
fn sums_do_not_wrap() {
    let most = u32::MAX;
    require_refused(Gaps, &[most, 1], Refused::Late(0));
    require_refused(Gaps, &[most], Refused::Late(0));
    // In 32 bits these would lead to 0, 4, 999,999,999 and back to 9.
    require_refused(Gaps, &[1, most], Refused::Late(1));
    require_refused(Gaps, &[5, most], Refused::Late(1));
    require_refused(Gaps, &[LIMIT, most], Refused::Late(1));
    require_refused(Gaps, &[9, 1 << 31, 1 << 31], Refused::Late(1));
    // The first one is too late even if the rest would lead back.
    require_refused(Gaps, &[most, most, 2], Refused::Late(0));
    require_refused(Dates, &[most], Refused::Late(0));
    require_refused(Dates, &[3, most, 4], Refused::Late(1));
}

#[test]
fn falling_dates() {
    require_refused(Dates, &[1, 0], Refused::Falling(1));
    require_refused(Dates, &[5, 9, 8, 20], Refused::Falling(2));
    require_refused(Dates, &[LIMIT, LIMIT, LIMIT - 1], Refused::Falling(2));
    // It is the one before that counts, not the earliest or the latest.
    require_refused(Dates, &[3, 9, 4], Refused::Falling(2));
}

#[test]
fn falling_gaps_are_none() {
    require_pair(&ticks(&[9, 12, 12, 13]), &ticks(&[9, 3, 0, 1]));
}

#[test]
fn late_comes_before_falling_in_a_record() {
    // The second record is above the limit and below the first, which is too.
    require_refused(Dates, &[LIMIT + 5, LIMIT + 3], Refused::Late(0));
    require_refused(Dates, &[7, LIMIT + 5, LIMIT + 3], Refused::Late(1));
}

#[test]
fn first_faulty_record_decides() {
    require_refused(Dates, &[9, 8, LIMIT + 1], Refused::Falling(1));
    require_refused(Dates, &[9, LIMIT + 1, 8], Refused::Late(1));
    require_refused(Dates, &[LIMIT + 1, 8, 7], Refused::Late(0));
    require_refused(Dates, &[9, 8, 7], Refused::Falling(1));
    require_refused(Gaps, &[1, LIMIT, LIMIT], Refused::Late(1));
}

#[test]
fn each_short_length() {
    for length in 0..=24 {
        let bytes = vec![0; length];
        for from in [Dates, Gaps] {
            let expected = match length {
                0 | 5 | 10 | 15 | 20 => Ok(bytes.clone()),
                _ => Err(Refused::Length),
            };
            assert_eq!(converted(from, &bytes), expected);
            assert_eq!(sound(from, &bytes), length / 5);
        }
    }
}

#[test]
fn outputs_of_another_length() {
    for from in [Dates, Gaps] {
        let log = ticks(&[1, 2, 3]);
        for lent in (0..=40).filter(|lent| *lent != 15) {
            require_length(from, &log, lent);
        }
        require_length(from, &[], 1);
        require_length(from, &[], 5);
        // Neither has whole records, though their lengths are the same.
        require_length(from, &log[..14], 14);
        require_length(from, &log[..14], 15);
        require_length(from, &log[..14], 10);
    }
}

#[test]
fn length_comes_before_all() {
    let late = ticks(&[LIMIT + 1, 0]);
    for from in [Dates, Gaps] {
        require_length(from, &late, 5);
        require_length(from, &late[..9], 9);
        // What is faulty among whole records is told all the same.
        assert_eq!(sound(from, &late[..9]), 0);
    }
    let falling = ticks(&[4, 3, 0]);
    require_length(Dates, &falling, 16);
    require_length(Dates, &falling[..12], 12);
    assert_eq!(sound(Dates, &falling[..12]), 1);
    // A record that is cut short counts for nothing.
    assert_eq!(sound(Dates, &falling[..9]), 1);
}

#[test]
fn all_actions_are_kept() {
    let dates: Vec<(u32, u8)> = (0..=255).map(|action| (300, action)).collect();
    let mut gaps: Vec<(u32, u8)> = (0..=255).map(|action| (0, action)).collect();
    gaps[0] = (300, 0);
    require_pair(&log(&dates), &log(&gaps));
}

#[test]
fn there_and_back() {
    // Dates that rise by 12 with every seventh record, past the end of two bytes.
    let dates: Vec<u32> = (0..40_000).map(|place| place / 7 * 12).collect();
    let records: Vec<(u32, u8)> = dates
        .iter()
        .map(|date| (*date, (date % 251) as u8))
        .collect();
    let dates = log(&records);
    let gaps = converted(Dates, &dates).expect("it is accepted");
    assert_eq!(converted(Gaps, &gaps), Ok(dates));
    // The first of each seven has the gap, and the very first has none.
    let gap = |place: usize| u32::from(place > 0 && place.is_multiple_of(7)) * 12;
    let expected: Vec<(u32, u8)> = (0..)
        .zip(records)
        .map(|(place, it)| (gap(place), it.1))
        .collect();
    assert_eq!(gaps, log(&expected));
}

#[test]
fn names_of_refusals() {
    let cases = [
        (Refused::Length, Refusal::I9, "I-9", None),
        (Refused::Late(3), Refusal::I10, "I-10", Some(3)),
        (Refused::Falling(4), Refusal::I11, "I-11", Some(4)),
    ];
    for (refused, reason, name, place) in cases {
        assert_eq!(refused.reason(), reason);
        assert_eq!(reason.name(), name);
        assert_eq!(refused.place(), place);
    }
}
