//! The keys of document 01, the largest bound as document 02 has it.

mod common;

use common::{dates, fresh, input, lines, played, refused, scheduled, sheet_of, COLLECT};
use host::course::{A, B, C, D, E};
use host::desk;
use host::limits::LAST_DATE;
use host::monitor::{Answer, Monitor};
use host::refusal::Refusal;
use host::sheet;

/// P1: the box after command 1 at 4 and command 1 at 5 on sheet A.
fn after_p1() -> Monitor {
    let mut monitor = fresh(A);
    assert_eq!(monitor.offer(1, 4), scheduled(1, 4));
    assert_eq!(monitor.offer(1, 5), scheduled(1, 9));
    monitor
}

#[test]
fn p1_p2_p3() {
    let mut monitor = after_p1();
    assert_eq!(dates(&monitor), [4, 9]);
    assert_eq!(monitor.offer(0, 6), scheduled(1, 9));
    assert_eq!(dates(&monitor), [4, 9, 9]);
    assert_eq!(monitor.offer(1, 6), scheduled(1, 14));
    assert_eq!(dates(&monitor), [4, 9, 9, 14]);
    assert!(!monitor.lamp());
}

#[test]
fn p4() {
    let mut monitor = fresh(B);
    assert_eq!(monitor.offer(1, 0), Answer::Dropped);
    assert!(!monitor.lamp());
}

#[test]
fn p5_p6() {
    let mut monitor = fresh(B);
    assert_eq!(monitor.offer(0, 3), Answer::Held(1));
    assert!(!monitor.lamp());
    assert_eq!(monitor.offer(1, 5), scheduled(2, 15));
    assert_eq!(dates(&monitor), [5, 15]);
    assert!(monitor.lamp());
    assert_eq!(monitor.offer(0, 5), Answer::Dropped);
    assert_eq!(dates(&monitor), [5, 15]);
}

#[test]
fn p7() {
    let mut monitor = fresh(C);
    assert_eq!(monitor.offer(0, 5), Answer::Held(1));
    assert_eq!(monitor.collect(8), Answer::Nothing);
    assert!(!monitor.lamp());
    assert_eq!(monitor.offer(1, 8), scheduled(2, 8));
    assert_eq!(dates(&monitor), [8, 8]);
}

#[test]
fn p8() {
    let mut monitor = fresh(C);
    assert_eq!(monitor.offer(0, 5), Answer::Held(1));
    assert_eq!(monitor.collect(9), Answer::Nothing);
    assert!(monitor.lamp());
    assert_eq!(monitor.offer(1, 9), Answer::Dropped);
    // The held list is not emptied.
    assert_eq!(monitor.pending_actions(), [0]);
    assert!(monitor.schedule().is_empty());
}

#[test]
fn p9() {
    let mut monitor = fresh(D);
    assert_eq!(monitor.offer(0, 2), Answer::Held(1));
    assert_eq!(monitor.offer(1, 3), scheduled(2, 10));
    // Not 10, 10, which has the same end but a later first date.
    assert_eq!(dates(&monitor), [3, 10]);
}

#[test]
fn p10() {
    let mut monitor = fresh(E);
    for count in 1..=16 {
        assert_eq!(monitor.offer(0, 0), Answer::Held(count));
    }
    assert_eq!(monitor.offer(0, 0), refused(Refusal::S4));
    assert_eq!(monitor.pending().len(), 16);
    assert_eq!(monitor.offer(1, 0), scheduled(17, 0));
    assert_eq!(dates(&monitor), [0; 17]);
    assert!(monitor.pending().is_empty());
}

#[test]
fn p10_in_lines() {
    let mut calls = [(0, 0); 18];
    calls[17] = (1, 0);
    let lines = lines(E, &calls);
    assert_eq!(lines[0], "sheet 2 1 2 2 1");
    assert_eq!(lines[1], "1 held 1 lamp 0");
    assert_eq!(lines[16], "16 held 16 lamp 0");
    assert_eq!(lines[17], "17 refused S-4 lamp 0");
    assert_eq!(lines[18], "18 scheduled 17 0 lamp 1");
}

#[test]
fn last_date_on_a() {
    let mut monitor = fresh(A);
    assert_eq!(monitor.offer(1, LAST_DATE), scheduled(1, 1_000_000_000));
    assert_eq!(monitor.offer(1, 1_000_000_000), refused(Refusal::S2));
    // The lamp knows no last date.
    assert!(!monitor.lamp());
}

#[test]
fn full_schedule_on_a() {
    let mut monitor = fresh(A);
    for _ in 0..32 {
        assert_eq!(monitor.offer(0, 0), scheduled(1, 0));
    }
    assert_eq!(monitor.offer(0, 0), refused(Refusal::S3));
    assert_eq!(monitor.collect(0), played(0, 0, 1, 0));
    assert_eq!(monitor.offer(0, 0), scheduled(1, 0));
    assert_eq!(monitor.offer(0, 0), refused(Refusal::S3));
}

/// A sheet of one location and clock with these readings for command 0.
fn one_location(intervals: &[[u8; 2]]) -> Vec<u8> {
    let rule = |[low, high]: &[u8; 2]| [0, 0, 0, *low, *high, 0, 255];
    let rules: Vec<[u8; 7]> = intervals.iter().map(rule).collect();
    sheet_of([1, 1, 1, 0], 1, &[&rules])
}

#[test]
fn highs_and_intervals() {
    let read = |intervals: &[[u8; 2]]| sheet::read(&one_location(intervals)).err();
    assert_eq!(read(&[[0, 30]]), None);
    assert_eq!(read(&[[0, 31]]), None);
    assert_eq!(read(&[[0, 40]]), None);
    assert_eq!(read(&[[0, 41]]), Some(Refusal::I5));
    assert_eq!(read(&[[0, 4], [5, 255]]), None);
    assert_eq!(read(&[[0, 5], [5, 255]]), Some(Refusal::I6));
}

#[test]
fn printed_example() {
    let calls = [
        (0, 1),
        (1, 4),
        (1, 5),
        (COLLECT, 3),
        (COLLECT, 5),
        (COLLECT, 8),
        (COLLECT, 8),
    ];
    let expected = "sheet 2 1 2 4 2\n\
        1 scheduled 1 1 lamp 0\n\
        2 scheduled 1 4 lamp 0\n\
        3 scheduled 1 9 lamp 0\n\
        4 refused S-1 lamp 0\n\
        5 played 0 1 1 1 lamp 0\n\
        6 played 1 4 2 4 lamp 0\n\
        7 none lamp 0\n";
    assert_eq!(desk::run(&input(A, &calls)), expected);
}

#[test]
fn course_sheets_load() {
    let first = |bytes| lines(bytes, &[]).remove(0);
    assert_eq!(A.len(), 42);
    assert_eq!(first(A), "sheet 2 1 2 4 2");
    assert_eq!(first(B), "sheet 3 1 2 2 1");
    assert_eq!(first(C), "sheet 3 1 2 2 1");
    assert_eq!(first(D), "sheet 3 1 2 2 1");
    assert_eq!(first(E), "sheet 2 1 2 2 1");
}

#[test]
fn wrong_programs() {
    // Keeping gaps would give 10 for command 0 at 6.
    let mut monitor = after_p1();
    monitor.offer(0, 6);
    assert_eq!(dates(&monitor).last(), Some(&9));
    // Emptying the held list in P8 would turn the lamp's reason around: with
    // command 0 still held at 9 the lamp stays lit.
    let mut monitor = fresh(C);
    monitor.offer(0, 5);
    monitor.collect(9);
    monitor.offer(1, 9);
    assert_eq!(monitor.pending_actions(), [0]);
    assert!(monitor.lamp());
}
