//! Calls and lines: inputs that end early, tails, the order of the checks,
//! what a refusal leaves alone, and the lamp.

mod common;

use common::{dates, fresh, input, lines, played, refused, run_of, scheduled, sheet_of, COLLECT};
use host::course::{A, B, C, D, E};
use host::desk;
use host::limits::LAST_DATE;
use host::monitor::Answer;
use host::refusal::Refusal;
use host::runs::{beginning, satisfies};

#[test]
fn too_few_bytes() {
    let whole = input(A, &[]);
    assert_eq!(desk::run(&whole), "sheet 2 1 2 4 2\n");
    for length in 0..whole.len() {
        assert_eq!(desk::run(&whole[..length]), "sheet refused I-1\n");
    }
    // A length above the bytes at hand, though the sheet itself is whole.
    let mut long = whole.clone();
    long[0] += 1;
    assert_eq!(desk::run(&long), "sheet refused I-1\n");
    // A length that cuts the sheet: the rest would be calls.
    let mut short = whole;
    short[0] -= 1;
    assert_eq!(desk::run(&short), "sheet refused I-4\n");
}

#[test]
fn lengths_at_the_edges() {
    let with = |length: usize| desk::run(&input(&vec![0; length], &[(0, 0)]));
    assert_eq!(with(0), "sheet refused I-1\n");
    assert_eq!(with(5), "sheet refused I-1\n");
    assert_eq!(with(6), "sheet refused I-2\n");
    assert_eq!(with(518), "sheet refused I-2\n");
    assert_eq!(with(519), "sheet refused I-1\n");
    assert_eq!(with(65_535), "sheet refused I-1\n");
}

#[test]
fn tails_of_one_to_four() {
    let whole = input(A, &[(0, 1), (0, 2)]);
    let first = "sheet 2 1 2 4 2\n1 scheduled 1 1 lamp 0\n";
    let second = "2 scheduled 1 2 lamp 0\n";
    assert_eq!(desk::run(&whole), format!("{first}{second}"));
    for tail in 1..=4 {
        let cut = &whole[..whole.len() - 5 + tail];
        assert_eq!(desk::run(cut), format!("{first}tail {tail}\n"));
    }
    let start = whole.len() - 10;
    assert_eq!(desk::run(&whole[..start + 3]), "sheet 2 1 2 4 2\ntail 3\n");
    // A refused sheet stops before any tail.
    let mut bad = input(&[0; 6], &[]);
    bad.push(7);
    assert_eq!(desk::run(&bad), "sheet refused I-2\n");
}

#[test]
fn order_of_first_checks() {
    let late = LAST_DATE + 1;
    let calls = [
        (0, 5),
        (2, late),
        (254, 0),
        (0, late),
        (COLLECT, u32::MAX),
        (0, 4),
        (COLLECT, 4),
        (1, 5),
    ];
    let lines = lines(A, &calls);
    assert_eq!(lines[1], "1 scheduled 1 5 lamp 0");
    assert_eq!(lines[2], "2 refused I-7 lamp 0");
    assert_eq!(lines[3], "3 refused I-7 lamp 0");
    assert_eq!(lines[4], "4 refused I-8 lamp 0");
    assert_eq!(lines[5], "5 refused I-8 lamp 0");
    assert_eq!(lines[6], "6 refused S-1 lamp 0");
    assert_eq!(lines[7], "7 refused S-1 lamp 0");
    assert_eq!(lines[8], "8 scheduled 1 5 lamp 0");
}

#[test]
fn edges_of_first_checks() {
    let mut monitor = fresh(A);
    assert_eq!(monitor.offer(1, 3), scheduled(1, 3));
    assert_eq!(monitor.offer(2, 3), refused(Refusal::I7));
    assert_eq!(monitor.offer(0, 2), refused(Refusal::S1));
    assert_eq!(monitor.collect(2), refused(Refusal::S1));
    assert_eq!(monitor.collect(LAST_DATE + 1), refused(Refusal::I8));
    assert_eq!(monitor.collect(LAST_DATE), played(1, 3, 1, 3));
    assert_eq!(monitor.offer(0, LAST_DATE + 1), refused(Refusal::I8));
    assert_eq!(monitor.offer(0, LAST_DATE), scheduled(1, LAST_DATE));
    assert_eq!(monitor.collect(LAST_DATE - 1), refused(Refusal::S1));
}

#[test]
fn dropped_held_and_none_set_the_date() {
    let mut monitor = fresh(B);
    assert_eq!(monitor.offer(1, 6), Answer::Dropped);
    assert_eq!(monitor.offer(0, 5), refused(Refusal::S1));
    assert_eq!(monitor.offer(0, 7), Answer::Held(1));
    assert_eq!(monitor.offer(1, 6), refused(Refusal::S1));
    assert_eq!(monitor.collect(9), Answer::Nothing);
    assert_eq!(monitor.offer(1, 8), refused(Refusal::S1));
    assert_eq!(monitor.offer(1, 9), scheduled(2, 19));
    assert_eq!(dates(&monitor), [9, 19]);
}

#[test]
fn s2_leaves_the_date() {
    let mut monitor = fresh(A);
    assert_eq!(monitor.offer(1, LAST_DATE - 1), scheduled(1, LAST_DATE - 1));
    let before = monitor.clone();
    assert_eq!(monitor.offer(1, LAST_DATE), refused(Refusal::S2));
    assert_eq!(monitor, before);
    let last = LAST_DATE - 1;
    assert_eq!(monitor.collect(last), played(1, last, 1, last));
    // Exactly five ticks before the last date a second one fits.
    let mut monitor = fresh(A);
    assert_eq!(monitor.offer(1, LAST_DATE - 5), scheduled(1, LAST_DATE - 5));
    assert_eq!(monitor.offer(1, LAST_DATE - 5), scheduled(1, LAST_DATE));
}

#[test]
fn s2_with_pending() {
    let mut monitor = fresh(B);
    assert_eq!(monitor.offer(0, LAST_DATE - 9), Answer::Held(1));
    // Openness and lamp know no last date.
    assert!(!monitor.lamp());
    let before = monitor.clone();
    assert_eq!(monitor.offer(1, LAST_DATE - 9), refused(Refusal::S2));
    assert_eq!(monitor, before);
    let mut monitor = fresh(B);
    assert_eq!(monitor.offer(0, LAST_DATE - 10), Answer::Held(1));
    assert_eq!(monitor.offer(1, LAST_DATE - 10), scheduled(2, LAST_DATE));
    // At the very last date a command is still held.
    let mut monitor = fresh(B);
    assert_eq!(monitor.offer(0, LAST_DATE), Answer::Held(1));
    assert_eq!(monitor.offer(1, LAST_DATE), refused(Refusal::S2));
    assert!(!monitor.lamp());
}

#[test]
fn s3_leaves_the_date() {
    let mut monitor = fresh(A);
    for _ in 0..32 {
        assert_eq!(monitor.offer(0, 0), scheduled(1, 0));
    }
    let before = monitor.clone();
    assert_eq!(monitor.offer(0, 7), refused(Refusal::S3));
    assert_eq!(monitor, before);
    assert_eq!(monitor.collect(3), played(0, 0, 1, 0));
}

#[test]
fn s4_leaves_the_date() {
    let mut monitor = fresh(E);
    for count in 1..=16 {
        assert_eq!(monitor.offer(0, 0), Answer::Held(count));
    }
    let before = monitor.clone();
    assert_eq!(monitor.offer(0, 9), refused(Refusal::S4));
    assert_eq!(monitor, before);
    assert_eq!(monitor.offer(1, 2), scheduled(17, 2));
    assert_eq!(dates(&monitor), [2; 17]);
}

#[test]
fn s4_only_if_it_must_be_held() {
    // Sheet E with a command 2 that no rule has: it is dropped, not S-4.
    let mut bytes = E.to_vec();
    bytes[2] = 3;
    let mut monitor = fresh(&bytes);
    for _ in 0..16 {
        monitor.offer(0, 0);
    }
    assert_eq!(monitor.offer(2, 0), Answer::Dropped);
    assert_eq!(monitor.pending().len(), 16);
    assert_eq!(monitor.offer(0, 0), refused(Refusal::S4));
}

#[test]
fn s2_before_s3() {
    let mut monitor = fresh(A);
    for _ in 0..31 {
        assert_eq!(monitor.offer(0, 0), scheduled(1, 0));
    }
    assert_eq!(monitor.offer(1, LAST_DATE), scheduled(1, LAST_DATE));
    // Both hold for command 1, which needs five more ticks; S-3 for command 0.
    assert_eq!(monitor.offer(1, LAST_DATE), refused(Refusal::S2));
    assert_eq!(monitor.offer(0, LAST_DATE), refused(Refusal::S3));
    // A free place lifts S-3 but not S-2.
    assert_eq!(monitor.collect(LAST_DATE), played(0, 0, 1, 0));
    assert_eq!(monitor.offer(1, LAST_DATE), refused(Refusal::S2));
    assert_eq!(monitor.offer(0, LAST_DATE), scheduled(1, LAST_DATE));
}

#[test]
fn s3_counts_the_whole_batch() {
    // Command 0 leads to and fro, so that batches have two commands; command
    // 1 stays in the accepting location.
    let go = [0, 1, 0, 0, 255, 0, 255];
    let back = [0, 0, 0, 0, 255, 0, 255];
    let stay = [1, 0, 0, 0, 255, 0, 255];
    let bytes = sheet_of([2, 1, 2, 0], 1, &[&[go, stay], &[back]]);
    let mut monitor = fresh(&bytes);
    for _ in 0..31 {
        assert_eq!(monitor.offer(1, 0), scheduled(1, 0));
    }
    // One place is free. Holding needs none; the batch of two does not fit.
    assert_eq!(monitor.offer(0, 0), Answer::Held(1));
    assert_eq!(monitor.offer(0, 0), refused(Refusal::S3));
    assert_eq!(monitor.pending_actions(), [0]);
    assert_eq!(monitor.collect(0), played(1, 0, 1, 0));
    assert_eq!(monitor.offer(0, 0), scheduled(2, 0));
    assert_eq!(monitor.schedule().len(), 32);
}

#[test]
fn collections_one_by_one() {
    let mut monitor = fresh(D);
    assert_eq!(monitor.collect(0), Answer::Nothing);
    assert_eq!(monitor.offer(0, 2), Answer::Held(1));
    assert_eq!(monitor.offer(1, 3), scheduled(2, 10));
    assert_eq!(monitor.collect(3), played(0, 3, 1, 2));
    assert_eq!(monitor.collect(9), Answer::Nothing);
    assert_eq!(monitor.collect(10), played(1, 10, 2, 3));
    assert_eq!(monitor.collect(10), Answer::Nothing);
}

#[test]
fn readings_go_on_after_play() {
    let mut monitor = fresh(A);
    assert_eq!(monitor.offer(1, 4), scheduled(1, 4));
    assert_eq!(monitor.offer(1, 5), scheduled(1, 9));
    assert_eq!(monitor.collect(10), played(1, 4, 1, 4));
    assert_eq!(monitor.collect(10), played(1, 9, 2, 5));
    // The clock was reset at 9, so the next is due at 14 at the earliest.
    assert_eq!(monitor.offer(1, 10), scheduled(1, 14));
    assert_eq!(monitor.collect(30), played(1, 14, 3, 10));
    assert_eq!(monitor.offer(1, 30), scheduled(1, 30));
}

#[test]
fn lamp_of_a_fresh_box() {
    // Sheet C wants command 0 by 8, also if nothing is held.
    let mut monitor = fresh(C);
    assert!(!monitor.lamp());
    assert_eq!(monitor.collect(8), Answer::Nothing);
    assert!(!monitor.lamp());
    assert_eq!(monitor.collect(9), Answer::Nothing);
    assert!(monitor.lamp());
}

#[test]
fn lamp_needs_one_more_command() {
    // One accepting location without rules: the empty run satisfies, but no
    // further command does.
    let bytes = sheet_of([1, 1, 1, 0], 1, &[&[]]);
    assert_eq!(lines(&bytes, &[(COLLECT, 0)])[1], "1 none lamp 1");
    assert_eq!(lines(&bytes, &[(0, 0)])[1], "1 dropped lamp 1");
    // The same with a rule up to 3.
    let bytes = sheet_of([1, 1, 1, 0], 1, &[&[[0, 0, 0, 0, 3, 0, 255]]]);
    assert_eq!(lines(&bytes, &[(COLLECT, 3)])[1], "1 none lamp 0");
    assert_eq!(lines(&bytes, &[(COLLECT, 4)])[1], "1 none lamp 1");
}

#[test]
fn lamp_looks_past_the_last_scheduled_date() {
    // Command 0 is due at 10; command 1 was possible up to 9 only.
    let first = [0, 1, 0, 10, 255, 0, 255];
    let second = [1, 1, 0, 0, 9, 0, 255];
    let bytes = sheet_of([2, 1, 2, 0], 2, &[&[first], &[second]]);
    let mut monitor = fresh(&bytes);
    assert_eq!(monitor.offer(0, 0), scheduled(1, 10));
    assert!(monitor.lamp());
    assert_eq!(monitor.offer(1, 0), Answer::Dropped);
    // Up to 10 it is still possible.
    let second = [1, 1, 0, 0, 10, 0, 255];
    let bytes = sheet_of([2, 1, 2, 0], 2, &[&[first], &[second]]);
    let mut monitor = fresh(&bytes);
    assert_eq!(monitor.offer(0, 0), scheduled(1, 10));
    assert!(!monitor.lamp());
    assert_eq!(monitor.offer(1, 0), scheduled(1, 10));
}

#[test]
fn lamp_knows_no_room() {
    let mut monitor = fresh(A);
    for _ in 0..32 {
        monitor.offer(0, 0);
    }
    assert!(!monitor.lamp());
    let mut monitor = fresh(E);
    for _ in 0..16 {
        monitor.offer(0, 0);
    }
    assert!(!monitor.lamp());
}

#[test]
fn accepting_nowhere() {
    let all = [0, 0, 0, 0, 255, 0, 255];
    let bytes = sheet_of([1, 1, 1, 0], 0, &[&[all]]);
    let expected = ["sheet 1 1 1 1 0", "1 dropped lamp 1", "2 none lamp 1"];
    assert_eq!(lines(&bytes, &[(0, 0), (COLLECT, 4)]), expected);
}

#[test]
fn least_last_date_comes_before_early_first_date() {
    // Command 0 at 0 leads to a location from which command 1 waits for
    // reading 20; from reading 3 on it leads to one that waits for 8.
    let early = [0, 1, 0, 0, 2, 0, 255];
    let later = [0, 2, 0, 3, 255, 0, 255];
    let slow = [1, 3, 0, 20, 255, 0, 255];
    let quick = [1, 3, 0, 8, 255, 0, 255];
    let tables: [&[[u8; 7]]; 4] = [&[early, later], &[slow], &[quick], &[]];
    let mut monitor = fresh(&sheet_of([4, 1, 2, 0], 8, &tables));
    assert_eq!(monitor.offer(0, 0), Answer::Held(1));
    assert_eq!(monitor.offer(1, 0), scheduled(2, 8));
    assert_eq!(dates(&monitor), [3, 8]);
}

#[test]
fn two_clocks_pull_apart() {
    // Command 0 resets clock 2. Command 1 wants clock 1 from 12 on and clock
    // 2 at most 4, so command 0 waits for 8.
    let first = [0, 1, 2, 0, 255, 0, 255];
    let second = [1, 2, 0, 12, 255, 0, 4];
    let tables: [&[[u8; 7]]; 3] = [&[first], &[second], &[]];
    let mut monitor = fresh(&sheet_of([3, 2, 2, 0], 4, &tables));
    assert_eq!(monitor.offer(0, 1), Answer::Held(1));
    assert_eq!(monitor.offer(1, 2), scheduled(2, 12));
    assert_eq!(dates(&monitor), [8, 12]);
}

#[test]
fn readings_above_forty_act_alike() {
    // From 40 on, and at most 40: reading 40 is in both, 41 in the first only.
    let with = |low, high, date| {
        let bytes = sheet_of([1, 1, 1, 0], 1, &[&[[0, 0, 0, low, high, 0, 255]]]);
        fresh(&bytes).offer(0, date)
    };
    for bound in [30, 31, 36, 39, 40] {
        let date = u32::from(bound);
        assert_eq!(with(bound, 255, date - 1), scheduled(1, date));
        assert_eq!(with(bound, 255, date + 1), scheduled(1, date + 1));
        assert_eq!(with(bound, 255, LAST_DATE), scheduled(1, LAST_DATE));
        assert_eq!(with(0, bound, date), scheduled(1, date));
        assert_eq!(with(0, bound, date + 1), Answer::Dropped);
        assert_eq!(with(bound, bound, 0), scheduled(1, date));
        assert_eq!(with(bound, bound, date + 1), Answer::Dropped);
        assert_eq!(with(bound, bound, LAST_DATE), Answer::Dropped);
    }
}

#[test]
fn seventeen_long_waits() {
    // Command 0 stays, with reset, at reading 40 exactly; command 1 ends at
    // reading 40. Seventeen commands are 17 times 40 ticks apart from date 0
    // for the first, whose clock starts at 0.
    let stay = [0, 0, 1, 40, 40, 0, 255];
    let end = [1, 1, 1, 40, 40, 0, 255];
    let mut monitor = fresh(&sheet_of([2, 1, 2, 0], 2, &[&[stay, end], &[]]));
    for count in 1..=16 {
        assert_eq!(monitor.offer(0, 7), Answer::Held(count));
    }
    assert_eq!(monitor.offer(1, 7), scheduled(17, 680));
    let expected: Vec<u32> = (1..=17).map(|index| 40 * index).collect();
    assert_eq!(dates(&monitor), expected);
}

#[test]
fn reached_is_where_the_history_leads() {
    let mut monitor = fresh(A);
    for (action, date) in [(1, 4), (0, 6), (1, 6), (1, 9), (0, 40), (1, 41)] {
        monitor.offer(action, date);
        monitor.collect(date);
        let automaton = monitor.automaton();
        let run = run_of(&monitor);
        let end = beginning(automaton, 0).follow(automaton, &run);
        assert_eq!(end, Some(monitor.reached()));
        assert!(satisfies(automaton, 0, &run));
    }
}
