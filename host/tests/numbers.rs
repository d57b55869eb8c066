//! The numbers of offers and their limit, on both boxes.

mod common;

use common::{played, refused, scheduled, sheet_of, COLLECT};
use host::course::{A, B, C, D, E};
use host::desk::Calls;
use host::limits::{LAST_DATE, MAX_NUMBERED};
use host::monitor::{Answer, PendingAction};
use host::refusal::Refusal;
use host::{fast, monitor, sheet};

/// Commands of the sheet below: `OPEN` starts or lengthens a list, `CLOSE` ends it
/// at once, `CLOSE_LATE` five ticks after its start; `SINGLE` is scheduled alone,
/// `NEVER` has no rule, and `BEYOND` is none of them.
const OPEN: u8 = 0;
const CLOSE: u8 = 1;
const SINGLE: u8 = 2;
const CLOSE_LATE: u8 = 3;
const NEVER: u8 = 4;
const BEYOND: u8 = 5;

fn lists_and_singles() -> Vec<u8> {
    let rule = |command, target, resets, low| [command, target, resets, low, 255, 0, 255];
    let home = [rule(SINGLE, 0, 0, 0), rule(OPEN, 1, 1, 0)];
    let list = [
        rule(OPEN, 1, 0, 0),
        rule(CLOSE, 0, 0, 0),
        rule(CLOSE_LATE, 0, 0, 5),
    ];
    sheet_of([2, 1, 5, 0], 1, &[&home, &list])
}

/// A call with the answer that it must get.
type Expected = (u8, u32, Answer);

fn fresh<M: Calls>(bytes: &[u8]) -> M {
    M::fresh(sheet::read(bytes).expect("the sheet loads"), 0)
}

fn call(calls: &mut impl Calls, first: u8, date: u32) -> Answer {
    match first {
        COLLECT => calls.collect(date),
        command => calls.offer(command, date),
    }
}

fn answer_all(calls: &mut impl Calls, expected: &[Expected]) {
    for (place, (first, date, answer)) in expected.iter().enumerate() {
        assert_eq!(call(calls, *first, *date), *answer, "call {}", place + 1);
    }
}

/// Both boxes answer so from the start.
fn answered(bytes: &[u8], expected: &[Expected]) {
    answer_all(&mut fresh::<monitor::Monitor>(bytes), expected);
    answer_all(&mut fresh::<fast::Monitor>(bytes), expected);
}

/// Both boxes answer so after so many offers of a command that were dropped.
fn answered_after(bytes: &[u8], command: u8, dropped: u32, expected: &[Expected]) {
    after_drops::<monitor::Monitor>(bytes, command, dropped, expected);
    after_drops::<fast::Monitor>(bytes, command, dropped, expected);
}

fn after_drops<M: Calls>(bytes: &[u8], command: u8, dropped: u32, expected: &[Expected]) -> M {
    let mut calls: M = fresh(bytes);
    for _ in 0..dropped {
        assert_eq!(calls.offer(command, 0), Answer::Dropped);
    }
    answer_all(&mut calls, expected);
    calls
}

/// So many times the same.
fn times(count: usize, expected: Expected) -> Vec<Expected> {
    vec![expected; count]
}

#[test]
fn numbers_start_at_one() {
    let expected = [
        (COLLECT, 0, Answer::Nothing),
        (0, 1, scheduled(1, 1)),
        (1, 4, scheduled(1, 4)),
        (1, 5, scheduled(1, 9)),
        (COLLECT, 5, played(0, 1, 1, 1)),
        (COLLECT, 8, played(1, 4, 2, 4)),
        (COLLECT, 8, Answer::Nothing),
        (0, 8, scheduled(1, 9)),
        (COLLECT, 9, played(1, 9, 3, 5)),
        (COLLECT, 9, played(0, 9, 4, 8)),
    ];
    answered(A, &expected);
}

#[test]
fn offers_refused_for_command_or_date_get_none() {
    let expected = [
        (2, 0, refused(Refusal::I7)),
        (0, LAST_DATE + 1, refused(Refusal::I8)),
        (0, 5, scheduled(1, 5)),
        (0, 4, refused(Refusal::S1)),
        (2, 5, refused(Refusal::I7)),
        (0, 6, scheduled(1, 6)),
        (COLLECT, 6, played(0, 5, 1, 5)),
        (COLLECT, 6, played(0, 6, 2, 6)),
    ];
    answered(A, &expected);
}

#[test]
fn offers_refused_for_the_last_date_get_none() {
    let (before, last) = (LAST_DATE - 1, LAST_DATE);
    let expected = [
        (1, before, scheduled(1, before)),
        (1, before, refused(Refusal::S2)),
        (1, last, refused(Refusal::S2)),
        (0, last, scheduled(1, last)),
        (COLLECT, last, played(1, before, 1, before)),
        (COLLECT, last, played(0, last, 2, last)),
    ];
    answered(A, &expected);
}

#[test]
fn offers_refused_for_room_get_none() {
    let mut expected = times(32, (0, 1, scheduled(1, 1)));
    expected.extend(times(3, (0, 7, refused(Refusal::S3))));
    expected.push((COLLECT, 2, played(0, 1, 1, 1)));
    expected.push((0, 3, scheduled(1, 3)));
    expected.extend((2..=32).map(|number| (COLLECT, 3, played(0, 1, number, 1))));
    expected.push((COLLECT, 3, played(0, 3, 33, 3)));
    answered(A, &expected);
}

#[test]
fn offers_refused_for_a_full_list_get_none() {
    let mut expected: Vec<Expected> = (1..=16)
        .map(|count| (0, count as u32, Answer::Held(count)))
        .collect();
    expected.extend(times(3, (0, 20, refused(Refusal::S4))));
    expected.push((1, 18, scheduled(17, 18)));
    // Each keeps the number and the date of its own offer.
    let of_list = (1..=16).map(|number| (COLLECT, 18, played(0, 18, number, number)));
    expected.extend(of_list);
    expected.push((COLLECT, 18, played(1, 18, 17, 18)));
    answered(E, &expected);
}

#[test]
fn dropped_offers_get_one() {
    let expected = [
        (1, 0, Answer::Dropped),
        (0, 3, Answer::Held(1)),
        (0, 4, Answer::Dropped),
        (0, 4, Answer::Dropped),
        (1, 5, scheduled(2, 15)),
        (COLLECT, 5, played(0, 5, 2, 3)),
        (COLLECT, 14, Answer::Nothing),
        (COLLECT, 15, played(1, 15, 5, 5)),
    ];
    answered(B, &expected);
}

#[test]
fn held_commands_keep_number_and_date() {
    // Dates 3 and 10; the list was held over a collection.
    let expected = [
        (0, 2, Answer::Held(1)),
        (COLLECT, 3, Answer::Nothing),
        (1, 3, scheduled(2, 10)),
        (COLLECT, 20, played(0, 3, 1, 2)),
        (COLLECT, 20, played(1, 10, 2, 3)),
    ];
    answered(D, &expected);
}

#[test]
fn consecutive_offers_have_consecutive_numbers() {
    let expected = [
        (NEVER, 0, Answer::Dropped),
        (OPEN, 1, Answer::Held(1)),
        (OPEN, 2, Answer::Held(2)),
        (OPEN, 4, Answer::Held(3)),
        (CLOSE, 6, scheduled(4, 6)),
        (SINGLE, 7, scheduled(1, 7)),
        (COLLECT, 9, played(OPEN, 6, 2, 1)),
        (COLLECT, 9, played(OPEN, 6, 3, 2)),
        (OPEN, 9, Answer::Held(1)),
        (COLLECT, 9, played(OPEN, 6, 4, 4)),
        (COLLECT, 9, played(CLOSE, 6, 5, 6)),
        (COLLECT, 9, played(SINGLE, 7, 6, 7)),
        (CLOSE_LATE, 9, scheduled(2, 14)),
        (COLLECT, 20, played(OPEN, 9, 7, 9)),
        (COLLECT, 20, played(CLOSE_LATE, 14, 8, 9)),
    ];
    answered(&lists_and_singles(), &expected);
}

#[test]
fn numbers_in_the_schedule_rise() {
    let mut calls: monitor::Monitor = fresh(&lists_and_singles());
    for command in [
        SINGLE, NEVER, OPEN, SINGLE, OPEN, NEVER, CLOSE, BEYOND, SINGLE, OPEN,
    ] {
        calls.offer(command, 3);
    }
    let numbers: Vec<u32> = calls.schedule().iter().map(|it| it.number).collect();
    assert_eq!(numbers, [1, 3, 5, 7, 8]);
    let held = PendingAction {
        action: OPEN,
        number: 9,
        offered: 3,
    };
    assert_eq!(calls.pending(), [held]);
}

#[test]
fn a_million_offers_are_numbered() {
    assert_eq!(MAX_NUMBERED, 1_000_000);
    let expected = [
        (SINGLE, 3, scheduled(1, 3)),
        (SINGLE, 3, refused(Refusal::S5)),
        (COLLECT, 3, played(SINGLE, 3, 1_000_000, 3)),
        (SINGLE, 4, refused(Refusal::S5)),
        (COLLECT, 4, Answer::Nothing),
    ];
    answered_after(&lists_and_singles(), NEVER, 999_999, &expected);
}

#[test]
fn refused_offers_leave_the_last_number() {
    let late = LAST_DATE + 1;
    let mut expected = times(32, (SINGLE, 9, scheduled(1, 9)));
    expected.extend([
        (BEYOND, 9, refused(Refusal::I7)),
        (SINGLE, late, refused(Refusal::I8)),
        (SINGLE, 8, refused(Refusal::S1)),
        (SINGLE, 9, refused(Refusal::S3)),
        (OPEN, 9, Answer::Held(1)),
        (CLOSE, 9, refused(Refusal::S5)),
    ]);
    answered_after(&lists_and_singles(), NEVER, 1_000_000 - 33, &expected);
}

#[test]
fn s5_after_s1_and_before_all_else() {
    let last = LAST_DATE;
    let mut expected = times(16, (SINGLE, last, scheduled(1, last)));
    expected.extend((1..=16).map(|count| (OPEN, last, Answer::Held(count))));
    expected.extend([
        (CLOSE_LATE, last, refused(Refusal::S2)),
        (CLOSE, last, refused(Refusal::S3)),
        (OPEN, last, refused(Refusal::S4)),
        // The last number; the lists stay as they are.
        (NEVER, last, Answer::Dropped),
        (CLOSE_LATE, last, refused(Refusal::S5)),
        (CLOSE, last, refused(Refusal::S5)),
        (OPEN, last, refused(Refusal::S5)),
        (NEVER, last, refused(Refusal::S5)),
        (BEYOND, last + 1, refused(Refusal::I7)),
        (NEVER, last + 1, refused(Refusal::I8)),
        (NEVER, last - 1, refused(Refusal::S1)),
        (COLLECT, last + 1, refused(Refusal::I8)),
        (COLLECT, last - 1, refused(Refusal::S1)),
        (COLLECT, last, played(SINGLE, last, 999_968, last)),
    ]);
    answered_after(&lists_and_singles(), NEVER, 1_000_000 - 33, &expected);
}

#[test]
fn s5_on_a_lit_box() {
    // Sheet C wants command 0 by 8.
    let expected = [
        (COLLECT, 9, Answer::Nothing),
        (0, 9, Answer::Dropped),
        (0, 9, refused(Refusal::S5)),
        (1, 10, refused(Refusal::S5)),
        (2, 10, refused(Refusal::I7)),
        (0, 8, refused(Refusal::S1)),
        (COLLECT, 9, Answer::Nothing),
    ];
    answered_after(C, 1, 999_999, &expected);
}

#[test]
fn s5_leaves_the_box() {
    let expected = [(OPEN, 3, Answer::Held(1)), (CLOSE, 3, scheduled(2, 3))];
    let bytes = lists_and_singles();
    let mut calls: monitor::Monitor = after_drops(&bytes, NEVER, 999_998, &expected);
    let before = calls.clone();
    for (command, date) in [(SINGLE, 3), (OPEN, 9), (NEVER, 9)] {
        assert_eq!(calls.offer(command, date), refused(Refusal::S5));
        assert_eq!(calls, before);
    }
    let mut calls: fast::Monitor = after_drops(&bytes, NEVER, 999_998, &expected);
    assert_eq!(calls.offer(NEVER, 9), refused(Refusal::S5));
    assert_eq!(calls.collect(3), played(OPEN, 3, 999_999, 3));
    assert_eq!(calls.collect(3), played(CLOSE, 3, 1_000_000, 3));
}

/// The lamp sets the limit aside.
fn lamp_goes_on<M: Calls>() {
    // Command 0 by 8, in the accepting location.
    let bytes = sheet_of([1, 1, 2, 0], 1, &[&[[0, 0, 0, 0, 8, 0, 255]]]);
    let expected = [(0, 0, refused(Refusal::S5))];
    let mut calls: M = after_drops(&bytes, 1, 1_000_000, &expected);
    assert!(!calls.lamp());
    assert_eq!(calls.collect(8), Answer::Nothing);
    assert!(!calls.lamp());
    assert_eq!(calls.offer(0, 9), refused(Refusal::S5));
    assert!(!calls.lamp());
    assert_eq!(calls.collect(9), Answer::Nothing);
    assert!(calls.lamp());
}

#[test]
fn the_lamp_sets_the_limit_aside() {
    lamp_goes_on::<monitor::Monitor>();
    lamp_goes_on::<fast::Monitor>();
}
