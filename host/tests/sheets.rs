//! The reasons against a sheet, on both sides of every edge, and the test of a
//! reading against bounds.

mod common;

use common::sheet_of;
use host::course::{A, B};
use host::limits::MAX_BOUND;
use host::refusal::Refusal;
use host::runs::Configuration;
use host::sets::ConfigurationSet;
use host::sheet::{self, Automaton, Interval};
use std::collections::HashMap;

/// The reason against a sheet.
fn reason(bytes: &[u8]) -> Option<Refusal> {
    sheet::read(bytes).err()
}

/// Sheet A with some bytes changed.
fn changed(changes: &[(usize, u8)]) -> Vec<u8> {
    let mut bytes = A.to_vec();
    for (at, value) in changes {
        bytes[*at] = *value;
    }
    bytes
}

/// The reason against sheet A with some bytes changed.
fn reason_changed(changes: &[(usize, u8)]) -> Option<Refusal> {
    reason(&changed(changes))
}

/// The reason against a sheet of one location, two clocks, two commands.
fn reason_rules(rules: &[[u8; 7]]) -> Option<Refusal> {
    reason(&sheet_of([1, 2, 2, 0], 1, &[rules]))
}

/// The reason against a sheet of one location, one clock, two commands.
fn reason_one_clock(rule: [u8; 7]) -> Option<Refusal> {
    reason(&sheet_of([1, 1, 2, 0], 1, &[&[rule]]))
}

/// How many lows there are.
const LOWS: usize = MAX_BOUND as usize + 1;

/// Rules for one location that do not overlap: two commands, each with the lows
/// of clock 1 one by one, and by clock 2 after that.
fn many_rules(count: usize) -> Vec<[u8; 7]> {
    let rule = |index: usize| {
        let (action, low_1, low_2) = (index % 2, index / 2 % LOWS, index / (2 * LOWS));
        [action, 0, 0, low_1, low_1, low_2, low_2].map(|number| number as u8)
    };
    (0..count).map(rule).collect()
}

#[test]
fn i1_length() {
    assert_eq!(reason(&[]), Some(Refusal::I1));
    assert_eq!(reason(&[1, 1, 1, 0, 0]), Some(Refusal::I1));
    // Six bytes pass I-1; without pairs they fail I-4.
    assert_eq!(reason(&[1, 1, 1, 0, 0, 0]), Some(Refusal::I4));
    // The longest sheet: 16 locations, 64 rules.
    let rules = many_rules(64);
    let mut tables: Vec<&[[u8; 7]]> = vec![&[]; 16];
    tables[3] = &rules;
    let mut longest = sheet_of([16, 2, 2, 0], 1, &tables);
    assert_eq!(longest.len(), 518);
    assert_eq!(reason(&longest), None);
    longest.push(0);
    assert_eq!(longest.len(), 519);
    assert_eq!(reason(&longest), Some(Refusal::I1));
    // Length comes before everything else.
    assert_eq!(reason(&[0, 0, 0, 9, 9]), Some(Refusal::I1));
    assert_eq!(reason(&[255; 519]), Some(Refusal::I1));
    assert_eq!(reason(&[255; 518]), Some(Refusal::I2));
}

#[test]
fn i2_locations() {
    let empty = |count: u8| {
        let tables: Vec<&[[u8; 7]]> = vec![&[]; count.into()];
        reason(&sheet_of([count, 1, 1, 0], 0, &tables))
    };
    assert_eq!(empty(0), Some(Refusal::I2));
    assert_eq!(empty(1), None);
    assert_eq!(empty(16), None);
    assert_eq!(empty(17), Some(Refusal::I2));
    assert_eq!(reason_changed(&[(0, 255)]), Some(Refusal::I2));
}

#[test]
fn i2_clocks_and_commands() {
    let empty = |clocks, actions| reason(&sheet_of([1, clocks, actions, 0], 0, &[&[]]));
    assert_eq!(empty(0, 1), Some(Refusal::I2));
    assert_eq!(empty(1, 1), None);
    assert_eq!(empty(2, 1), None);
    assert_eq!(empty(3, 1), Some(Refusal::I2));
    assert_eq!(empty(255, 1), Some(Refusal::I2));
    assert_eq!(empty(1, 0), Some(Refusal::I2));
    assert_eq!(empty(1, 16), None);
    assert_eq!(empty(1, 17), Some(Refusal::I2));
    assert_eq!(empty(1, 255), Some(Refusal::I2));
}

#[test]
fn i3_initial_and_accepting() {
    assert_eq!(reason_changed(&[(3, 1)]), None);
    assert_eq!(reason_changed(&[(3, 2)]), Some(Refusal::I3));
    assert_eq!(reason_changed(&[(3, 255)]), Some(Refusal::I3));
    // Bit 1 is the last of two locations, bit 2 is one too many.
    assert_eq!(reason_changed(&[(4, 2)]), None);
    assert_eq!(reason_changed(&[(4, 4)]), Some(Refusal::I3));
    assert_eq!(reason_changed(&[(4, 7)]), Some(Refusal::I3));
    assert_eq!(reason_changed(&[(5, 1)]), Some(Refusal::I3));
    assert_eq!(reason_changed(&[(5, 128)]), Some(Refusal::I3));
    assert_eq!(reason_changed(&[(4, 0)]), None);
}

#[test]
fn i3_many_locations() {
    let tables: Vec<&[[u8; 7]]> = vec![&[]; 16];
    let empty = |count: usize, initial: u8, set: u16| {
        reason(&sheet_of(
            [count as u8, 1, 1, initial],
            set,
            &tables[..count],
        ))
    };
    assert_eq!(empty(16, 15, 0xFFFF), None);
    assert_eq!(empty(16, 16, 0xFFFF), Some(Refusal::I3));
    assert_eq!(empty(15, 14, 0x7FFF), None);
    assert_eq!(empty(15, 14, 0x8000), Some(Refusal::I3));
    assert_eq!(empty(15, 15, 0x7FFF), Some(Refusal::I3));
    assert_eq!(empty(8, 7, 0x80), None);
    assert_eq!(empty(8, 7, 0x100), Some(Refusal::I3));
    assert_eq!(empty(1, 0, 1), None);
    assert_eq!(empty(1, 0, 2), Some(Refusal::I3));
}

#[test]
fn i4_too_short_for_pairs() {
    let one = [1, 1, 1, 0, 0, 0, 10, 0, 0, 0];
    assert_eq!(reason(&one), None);
    assert_eq!(reason(&one[..9]), Some(Refusal::I4));
    assert_eq!(reason(&A[..13]), Some(Refusal::I4));
    assert_eq!(reason(&A[..14]), Some(Refusal::I4));
}

#[test]
fn i4_offsets() {
    for offset in [13, 15, 7, 21, 0, 28] {
        assert_eq!(reason_changed(&[(6, offset)]), Some(Refusal::I4));
    }
    for offset in [27, 29, 21, 35, 14, 0] {
        assert_eq!(reason_changed(&[(10, offset)]), Some(Refusal::I4));
    }
    // The high bytes count.
    assert_eq!(reason_changed(&[(7, 1)]), Some(Refusal::I4));
    assert_eq!(reason_changed(&[(11, 1)]), Some(Refusal::I4));
    // Both offsets off by one rule.
    assert_eq!(reason_changed(&[(6, 21), (10, 35)]), Some(Refusal::I4));
    // The pairs of the two locations exchanged are not sorted by offset.
    assert_eq!(reason_changed(&[(6, 28), (10, 14)]), Some(Refusal::I4));
}

#[test]
fn i4_lengths() {
    for length in [13, 15, 7, 21, 0] {
        assert_eq!(reason_changed(&[(8, length)]), Some(Refusal::I4));
        assert_eq!(reason_changed(&[(12, length)]), Some(Refusal::I4));
    }
    assert_eq!(reason_changed(&[(9, 1)]), Some(Refusal::I4));
    assert_eq!(reason_changed(&[(13, 1)]), Some(Refusal::I4));
    // Consistent pairs, but lengths that are no multiples of 7.
    let shifted = [(8, 13), (10, 27), (12, 15)];
    assert_eq!(reason_changed(&shifted), Some(Refusal::I4));
    // Consistent pairs whose sum is not at the end.
    assert_eq!(reason_changed(&[(8, 7), (10, 21)]), Some(Refusal::I4));
    assert_eq!(reason_changed(&[(8, 21), (10, 35)]), Some(Refusal::I4));
    // Three rules for one location and one for the other are a good layout,
    // but then two rules of one location share command and readings.
    let moved = [(8, 21), (10, 35), (12, 7)];
    assert_eq!(reason_changed(&moved), Some(Refusal::I6));
    assert_eq!(
        reason_changed(&[(8, 7), (10, 21), (12, 21)]),
        Some(Refusal::I6)
    );
}

#[test]
fn i4_sums_that_wrap() {
    // Seven lengths of 65534 and one of 14 add up to 7 times 65536, so that
    // two-byte sums would come back to the end of the pairs.
    let tables: Vec<&[[u8; 7]]> = vec![&[]; 8];
    let mut bytes = sheet_of([8, 1, 1, 0], 0, &tables);
    assert_eq!(bytes.len(), 38);
    assert_eq!(reason(&bytes), None);
    for location in 0..8 {
        let offset = 38 - 2 * location as u16;
        let length: u16 = if location < 7 { 65_534 } else { 14 };
        let pair = 6 + 4 * location;
        bytes[pair..pair + 2].copy_from_slice(&offset.to_le_bytes());
        bytes[pair + 2..pair + 4].copy_from_slice(&length.to_le_bytes());
    }
    assert_eq!(reason(&bytes), Some(Refusal::I4));
}

#[test]
fn i4_end() {
    let mut bytes = A.to_vec();
    bytes.push(0);
    assert_eq!(reason(&bytes), Some(Refusal::I4));
    assert_eq!(reason(&A[..41]), Some(Refusal::I4));
    assert_eq!(reason(&A[..35]), Some(Refusal::I4));
    bytes.extend([0; 6]);
    assert_eq!(bytes.len(), 49);
    assert_eq!(reason(&bytes), Some(Refusal::I4));
}

#[test]
fn i4_number_of_rules() {
    assert_eq!(reason_rules(&many_rules(64)), None);
    assert_eq!(reason_rules(&many_rules(65)), Some(Refusal::I4));
    // 72 rules are the most that fit in 518 bytes.
    assert_eq!(reason_rules(&many_rules(72)), Some(Refusal::I4));
    assert_eq!(reason_rules(&many_rules(73)), Some(Refusal::I1));
    // The number counts over all locations.
    let (some, more) = (many_rules(40), many_rules(24));
    assert_eq!(reason(&sheet_of([2, 2, 2, 0], 1, &[&some, &more])), None);
    let more = many_rules(25);
    let sheet = sheet_of([2, 2, 2, 0], 1, &[&some, &more]);
    assert_eq!(reason(&sheet), Some(Refusal::I4));
}

#[test]
fn i5_command_target_reset() {
    let with = |action, target, resets| reason_rules(&[[action, target, resets, 0, 255, 0, 255]]);
    assert_eq!(with(1, 0, 3), None);
    assert_eq!(with(2, 0, 0), Some(Refusal::I5));
    assert_eq!(with(255, 0, 0), Some(Refusal::I5));
    assert_eq!(with(0, 1, 0), Some(Refusal::I5));
    assert_eq!(with(0, 255, 0), Some(Refusal::I5));
    assert_eq!(with(0, 0, 4), Some(Refusal::I5));
    assert_eq!(with(0, 0, 255), Some(Refusal::I5));
    // With more locations the target's edge moves.
    assert_eq!(reason_changed(&[(15, 1)]), None);
    assert_eq!(reason_changed(&[(15, 2)]), Some(Refusal::I5));
}

#[test]
fn i5_bounds_of_both_clocks() {
    for clock in [3, 5] {
        let with = |low, high| {
            let mut rule = [0, 0, 0, 0, 255, 0, 255];
            rule[clock] = low;
            rule[clock + 1] = high;
            reason_rules(&[rule])
        };
        for bound in 30..=40 {
            assert_eq!(with(bound, 255), None);
            assert_eq!(with(0, bound), None);
            assert_eq!(with(bound, bound), None);
            assert_eq!(with(bound, bound - 1), Some(Refusal::I5));
        }
        for bound in 41..=254 {
            assert_eq!(with(bound, 255), Some(Refusal::I5));
            assert_eq!(with(0, bound), Some(Refusal::I5));
            assert_eq!(with(bound, bound), Some(Refusal::I5));
            assert_eq!(with(40, bound), Some(Refusal::I5));
        }
        assert_eq!(with(255, 255), Some(Refusal::I5));
        assert_eq!(with(0, 0), None);
        assert_eq!(with(1, 0), Some(Refusal::I5));
        assert_eq!(with(5, 5), None);
        assert_eq!(with(6, 5), Some(Refusal::I5));
    }
}

#[test]
fn i5_one_clock() {
    assert_eq!(reason_one_clock([0, 0, 1, 3, 9, 0, 255]), None);
    assert_eq!(reason_one_clock([0, 0, 1, 3, 9, 1, 255]), Some(Refusal::I5));
    assert_eq!(reason_one_clock([0, 0, 1, 3, 9, 0, 40]), Some(Refusal::I5));
    assert_eq!(reason_one_clock([0, 0, 1, 3, 9, 0, 254]), Some(Refusal::I5));
    assert_eq!(reason_one_clock([0, 0, 1, 3, 9, 0, 0]), Some(Refusal::I5));
    assert_eq!(reason_one_clock([0, 0, 2, 3, 9, 0, 255]), Some(Refusal::I5));
    assert_eq!(reason_one_clock([0, 0, 3, 3, 9, 0, 255]), Some(Refusal::I5));
    // Clock 1 keeps its own range.
    for bound in 30..=40 {
        assert_eq!(reason_one_clock([0, 0, 0, bound, bound, 0, 255]), None);
    }
    for bound in [41, 42, 254] {
        let rule = [0, 0, 0, 0, bound, 0, 255];
        assert_eq!(reason_one_clock(rule), Some(Refusal::I5));
    }
}

#[test]
fn i6_one_clock() {
    let two = |one: [u8; 2], other: [u8; 2]| {
        let rules = [one, other].map(|[low, high]| [0, 0, 0, low, high, 0, 255]);
        reason(&sheet_of([1, 1, 1, 0], 1, &[&rules]))
    };
    assert_eq!(two([0, 4], [5, 255]), None);
    assert_eq!(two([5, 255], [0, 4]), None);
    assert_eq!(two([0, 5], [5, 255]), Some(Refusal::I6));
    assert_eq!(two([5, 255], [0, 5]), Some(Refusal::I6));
    assert_eq!(two([0, 255], [3, 3]), Some(Refusal::I6));
    assert_eq!(two([3, 3], [3, 3]), Some(Refusal::I6));
    assert_eq!(two([3, 3], [4, 4]), None);
    for low in [30, 31, 40] {
        assert_eq!(two([low - 1, 255], [low, 255]), Some(Refusal::I6));
        assert_eq!(two([0, low - 1], [low, 255]), None);
        assert_eq!(two([0, low], [low, 255]), Some(Refusal::I6));
    }
    assert_eq!(two([2, 9], [4, 6]), Some(Refusal::I6));
}

#[test]
fn i6_two_clocks() {
    let two = |one: [u8; 4], other: [u8; 4]| {
        let rules = [one, other].map(|[a, b, c, d]| [0, 0, 0, a, b, c, d]);
        reason_rules(&rules)
    };
    // Apart in one clock is enough, whatever the other says.
    assert_eq!(two([0, 4, 0, 255], [5, 255, 0, 255]), None);
    assert_eq!(two([0, 255, 0, 4], [0, 255, 5, 255]), None);
    assert_eq!(two([0, 5, 0, 5], [5, 9, 6, 9]), None);
    assert_eq!(two([0, 5, 0, 5], [6, 9, 5, 9]), None);
    // Meeting in both is I-6, also at readings that no run reaches together.
    assert_eq!(two([0, 5, 0, 5], [5, 9, 5, 9]), Some(Refusal::I6));
    assert_eq!(two([0, 0, 20, 255], [0, 255, 40, 40]), Some(Refusal::I6));
    assert_eq!(two([0, 255, 7, 7], [12, 12, 0, 255]), Some(Refusal::I6));
}

#[test]
fn i6_needs_one_location_and_command() {
    let all = |action| [action, 0, 0, 0, 255, 0, 255];
    assert_eq!(reason_rules(&[all(0), all(1)]), None);
    assert_eq!(reason_rules(&[all(0), all(1), all(0)]), Some(Refusal::I6));
    assert_eq!(reason_rules(&[all(0), all(1), all(1)]), Some(Refusal::I6));
    let apart = sheet_of([2, 1, 1, 0], 1, &[&[all(0)], &[all(0)]]);
    assert_eq!(reason(&apart), None);
    // A location that nothing leads to counts too.
    let lonely = sheet_of([2, 1, 1, 0], 1, &[&[all(0)], &[all(0), all(0)]]);
    assert_eq!(reason(&lonely), Some(Refusal::I6));
}

#[test]
fn order_of_reasons() {
    // Changes of sheet A, each with its reason: count, initial location,
    // offset, field of the first rule, overlap in location 1.
    let changes = [
        ((1, 3), Refusal::I2),
        ((3, 2), Refusal::I3),
        ((6, 15), Refusal::I4),
        ((16, 4), Refusal::I5),
        ((28, 1), Refusal::I6),
    ];
    for first in 0..changes.len() {
        let later: Vec<(usize, u8)> = changes[first..].iter().map(|change| change.0).collect();
        assert_eq!(reason_changed(&later), Some(changes[first].1));
    }
}

#[test]
fn order_is_over_the_whole_sheet() {
    let all = [0, 0, 0, 0, 255, 0, 255];
    let bad = [0, 9, 0, 0, 255, 0, 255];
    // An overlap in location 0 and a bad field in location 1: I-5 is first.
    let sheet = sheet_of([2, 1, 1, 0], 1, &[&[all, all], &[bad]]);
    assert_eq!(reason(&sheet), Some(Refusal::I5));
    // A bad field in location 0 and a bad length at location 1: I-4 is first.
    let mut sheet = sheet_of([2, 1, 1, 0], 1, &[&[bad], &[all]]);
    sheet[12] = 8;
    assert_eq!(reason(&sheet), Some(Refusal::I4));
    // A bad initial location and a bad number of commands: I-2 is first.
    assert_eq!(reason_changed(&[(2, 17), (3, 9)]), Some(Refusal::I2));
    // 65 rules, one of them bad: I-4 is first.
    let mut rules = many_rules(65);
    rules[0][2] = 4;
    assert_eq!(reason_rules(&rules), Some(Refusal::I4));
}

#[test]
fn fields_are_read() {
    let automaton = sheet::read(B).expect("sheet B loads");
    assert_eq!((automaton.locations, automaton.clocks), (3, 1));
    assert_eq!((automaton.actions, automaton.initial), (2, 0));
    assert_eq!(automaton.accepting, 4);
    let rule = automaton.outgoing[1][0];
    assert_eq!((rule.action, rule.target), (1, 2));
    assert_eq!(rule.resets, [false, false]);
    assert_eq!((rule.guards[0].low, rule.guards[0].high), (10, Some(15)));
    assert_eq!((rule.guards[1].low, rule.guards[1].high), (0, None));
    assert!(automaton.outgoing[2].is_empty());
}

/// All pairs of a low and a high byte, also those that no load accepts.
fn all_bounds() -> impl Iterator<Item = [u8; 2]> {
    (0..=255).flat_map(|low| (0..=255).map(move |high| [low, high]))
}

/// The cases of document 02's bound test, the first that fits.
#[test]
fn readings_within_bounds() {
    let mut cases = HashMap::new();
    for [low, high] in all_bounds() {
        let interval = Interval::from_bytes(low, high);
        let (low, high) = (u32::from(low), u32::from(high));
        let same = |says: &dyn Fn(u32) -> bool| {
            let plain = |reading| low <= reading && (high == 255 || reading <= high);
            (0..=300).all(|it| interval.contains(it) == says(it) && says(it) == plain(it))
        };
        let (case, is_same) = if high == 255 {
            ("at least", same(&|reading| reading >= low))
        } else if low == high {
            ("exactly", same(&|reading| reading == low))
        } else if low == 0 {
            ("at most", same(&|reading| reading <= high))
        } else {
            (
                "between",
                same(&|reading| low <= reading && reading <= high),
            )
        };
        assert!(is_same, "{low} to {high}, {case}");
        *cases.entry(case).or_insert(0) += 1;
    }
    let counts = ["at least", "exactly", "at most", "between"].map(|case| cases[case]);
    assert_eq!(counts, [256, 255, 254, 64_771]);
}

/// Whether a set in which a clock has a reading can play the only action.
fn plays(automaton: &Automaton, clock: usize, reading: u32) -> bool {
    let mut valuation = [7; 2];
    valuation[clock] = reading;
    let location = 0;
    let set = ConfigurationSet::single(&Configuration {
        location,
        valuation,
    });
    let mut played = ConfigurationSet::empty();
    set.play(automaton, 0, &mut played);
    played.accepts(automaton)
}

/// Sets cap the readings and have the bounds as bits; they say the same.
#[test]
fn sets_within_bounds() {
    let mut loaded = 0;
    for [low, high] in all_bounds() {
        let interval = Interval::from_bytes(low, high);
        let rules = [[0, 0, 0, low, high, 0, 255], [0, 0, 0, 0, 255, low, high]];
        let sheets = rules.map(|rule| sheet::read(&sheet_of([1, 2, 1, 0], 1, &[&[rule]])));
        let [Ok(first), Ok(second)] = sheets else {
            continue;
        };
        loaded += 1;
        assert!((0..=300).all(|reading| {
            let expected = interval.contains(reading);
            plays(&first, 0, reading) == expected && plays(&second, 1, reading) == expected
        }));
    }
    // Each low with each high that is not below it, and with no upper bound.
    assert_eq!(loaded, LOWS * (LOWS + 1) / 2 + LOWS);
}
