//! Two sheets as one: the joined sheet byte by byte, every refusal and their order,
//! and the runs that it satisfies.

mod common;

use common::sheet_of;
use host::course::{A, B, C, D, E};
use host::limits::MAX_BOUND;
use host::product::{join, OUTPUT};
use host::refusal::Refusal;
use host::runs::{satisfies, TimedAction};
use host::sheet::{self, Automaton};

/// The byte that an output has everywhere before a call.
const BEFORE: u8 = 0xAA;

/// A rule that always applies, without reset.
const fn always(action: u8, target: u8) -> [u8; 7] {
    [action, target, 0, 0, 255, 0, 255]
}

/// Joins with an output of 518 bytes. A refusal must leave it, and else what
/// follows the sheet must be 0.
fn joined(first: &[u8], second: &[u8]) -> Result<Vec<u8>, Refusal> {
    let mut output = vec![BEFORE; OUTPUT];
    match join(first, second, &mut output) {
        Ok(length) => {
            assert!(output[length..].iter().all(|byte| *byte == 0));
            output.truncate(length);
            Ok(output)
        }
        Err(refusal) => {
            assert_eq!(output, [BEFORE; OUTPUT]);
            Err(refusal)
        }
    }
}

/// The joined automaton; the sheet must load.
fn automaton(first: &[u8], second: &[u8]) -> Automaton {
    let bytes = joined(first, second).expect("they can be joined");
    sheet::read(&bytes).expect("the joined sheet loads")
}

fn require_refused(first: &[u8], second: &[u8], refusal: Refusal) {
    assert_eq!(joined(first, second), Err(refusal));
}

/// Requires I-9 with an output of such a length, which stays as it was.
fn require_length(first: &[u8], second: &[u8], lent: usize) {
    let mut output = vec![BEFORE; lent];
    assert_eq!(join(first, second, &mut output), Err(Refusal::I9));
    assert_eq!(output, vec![BEFORE; lent]);
}

/// A sheet of two locations and one of three, with everything in them that a
/// product can mix up.
fn two_by_three() -> [Vec<u8>; 2] {
    let first = sheet_of(
        [2, 1, 2, 1],
        0b10,
        &[
            &[[0, 1, 1, 2, 5, 0, 255], [1, 0, 0, 0, 255, 0, 255]],
            &[[0, 0, 0, 0, 9, 0, 255], [0, 1, 1, 10, 255, 0, 255]],
        ],
    );
    let second = sheet_of(
        [3, 1, 2, 2],
        0b101,
        &[
            &[[1, 2, 1, 0, 40, 0, 255]],
            &[],
            &[
                [0, 1, 0, 4, 4, 0, 255],
                [1, 0, 1, 3, 255, 0, 255],
                [0, 2, 1, 5, 7, 0, 255],
            ],
        ],
    );
    [first, second]
}

#[test]
fn joined_sheet_byte_by_byte() {
    let [first, second] = two_by_three();
    #[rustfmt::skip]
    let expected = [
        // 6 locations, 2 clocks, 2 commands, initial (1, 2), accepting (1, 0) and (1, 2).
        6, 2, 2, 5, 8 + 32, 0,
        // 1, 0, 3, 0, 0 and 4 rules.
        30, 0, 7, 0,
        37, 0, 0, 0,
        37, 0, 21, 0,
        58, 0, 0, 0,
        58, 0, 0, 0,
        58, 0, 28, 0,
        // (0, 0): command 1 alone has rules in both.
        1, 2, 2, 0, 255, 0, 40,
        // (0, 2): the first sheet's rule for 0 with both of the second, then 1.
        0, 4, 1, 2, 5, 4, 4,
        0, 5, 3, 2, 5, 5, 7,
        1, 0, 2, 0, 255, 3, 255,
        // (1, 2): each of the first sheet's rules for 0 with both of the second.
        0, 1, 0, 0, 9, 4, 4,
        0, 2, 2, 0, 9, 5, 7,
        0, 4, 1, 10, 255, 4, 4,
        0, 5, 3, 10, 255, 5, 7,
    ];
    assert_eq!(joined(&first, &second), Ok(expected.to_vec()));
}

#[test]
fn the_other_way_round() {
    let [first, second] = two_by_three();
    let turned = automaton(&second, &first);
    // Location (j, i) is j times 2, plus i.
    assert_eq!((turned.locations, turned.clocks, turned.actions), (6, 2, 2));
    assert_eq!(turned.initial, 2 * 2 + 1);
    assert_eq!(turned.accepting, 1 << 1 | 1 << 5);
    let sizes: Vec<usize> = turned.outgoing.iter().map(Vec::len).collect();
    assert_eq!(sizes, [1, 0, 0, 0, 3, 4]);
    // (2, 1) is 5: the second sheet's order, and its bounds for clock 1.
    let bytes = joined(&second, &first).expect("they can be joined");
    let rules = &bytes[6 + 4 * 6 + 7 * 4..];
    #[rustfmt::skip]
    let expected = [
        0, 2, 0, 4, 4, 0, 9,
        0, 3, 2, 4, 4, 10, 255,
        0, 4, 1, 5, 7, 0, 9,
        0, 5, 3, 5, 7, 10, 255,
    ];
    assert_eq!(rules, expected);
}

#[test]
fn one_location_each() {
    let first = sheet_of([1, 1, 1, 0], 1, &[&[[0, 0, 1, 3, 8, 0, 255]]]);
    let second = sheet_of([1, 1, 1, 0], 1, &[&[[0, 0, 0, 0, 20, 0, 255]]]);
    let expected = [1, 2, 1, 0, 1, 0, 10, 0, 7, 0, 0, 0, 1, 3, 8, 0, 20];
    assert_eq!(joined(&first, &second), Ok(expected.to_vec()));
    let turned = [1, 2, 1, 0, 1, 0, 10, 0, 7, 0, 0, 0, 2, 0, 20, 3, 8];
    assert_eq!(joined(&second, &first), Ok(turned.to_vec()));
}

#[test]
fn resets_of_each_sheet() {
    let sheet = |reset| sheet_of([1, 1, 1, 0], 1, &[&[[0, 0, reset, 0, 255, 0, 255]]]);
    for (one, other, both) in [(0, 0, 0), (1, 0, 1), (0, 1, 2), (1, 1, 3)] {
        let bytes = joined(&sheet(one), &sheet(other)).expect("they can be joined");
        assert_eq!(bytes[12], both);
    }
}

#[test]
fn accepting_only_where_both_accept() {
    let tables: [&[[u8; 7]]; 4] = [&[], &[], &[], &[]];
    let sheet = |set: u16| sheet_of([4, 1, 3, 0], set, &tables);
    for (one, other) in [(0b0110, 0b1001), (0, 0b1111), (0b1111, 0), (0b1000, 0b1000)] {
        let joined = automaton(&sheet(one), &sheet(other));
        for i in 0..4 {
            for j in 0..4 {
                let both = one >> i & 1 == 1 && other >> j & 1 == 1;
                assert_eq!(joined.is_accepting(4 * i + j), both);
            }
        }
    }
    assert_eq!(automaton(&sheet(15), &sheet(15)).accepting, u16::MAX);
}

#[test]
fn initial_pair() {
    let tables: [&[[u8; 7]]; 5] = [&[]; 5];
    for i in 0..3 {
        for j in 0..5 {
            let first = sheet_of([3, 1, 1, i], 0, &tables[..3]);
            let second = sheet_of([5, 1, 1, j], 0, &tables);
            assert_eq!(automaton(&first, &second).initial, 5 * i + j);
        }
    }
}

/// A rule of one sheet may have several partners with intervals that do not meet.
#[test]
fn several_partners() {
    let pieces: [[u8; 7]; 3] = [
        [0, 0, 0, 11, 255, 0, 255],
        [0, 0, 1, 0, 4, 0, 255],
        [0, 0, 0, 5, 10, 0, 255],
    ];
    let first = sheet_of([1, 1, 1, 0], 1, &[&pieces[..2]]);
    let second = sheet_of([1, 1, 1, 0], 1, &[&pieces]);
    let bytes = joined(&first, &second).expect("they can be joined");
    #[rustfmt::skip]
    let expected = [
        0, 0, 0, 11, 255, 11, 255,
        0, 0, 2, 11, 255, 0, 4,
        0, 0, 0, 11, 255, 5, 10,
        0, 0, 1, 0, 4, 11, 255,
        0, 0, 3, 0, 4, 0, 4,
        0, 0, 1, 0, 4, 5, 10,
    ];
    assert_eq!(bytes[10..], expected);
    assert_eq!(sheet::read(&bytes).map(|it| it.transition_count()), Ok(6));
}

#[test]
fn commands_that_one_sheet_has_no_rules_for() {
    let first = sheet_of([1, 1, 3, 0], 1, &[&[always(0, 0), always(1, 0)]]);
    let second = sheet_of([1, 1, 3, 0], 1, &[&[always(2, 0), always(1, 0)]]);
    let joined = automaton(&first, &second);
    assert_eq!(joined.actions, 3);
    let actions: Vec<u8> = joined.outgoing[0].iter().map(|it| it.action).collect();
    assert_eq!(actions, [1]);
}

/// A sheet of so many locations, one clock and one command, without rules.
fn bare(locations: u8) -> Vec<u8> {
    let tables: Vec<&[[u8; 7]]> = vec![&[]; locations.into()];
    sheet_of([locations, 1, 1, locations - 1], 1, &tables)
}

#[test]
fn locations_at_the_limit() {
    for one in 1..=16 {
        for other in 1..=16 {
            let answer = joined(&bare(one), &bare(other));
            let all = usize::from(one) * usize::from(other);
            if all <= 16 {
                assert_eq!(answer.map(|bytes| bytes.len()), Ok(6 + 4 * all));
                assert_eq!(
                    usize::from(automaton(&bare(one), &bare(other)).initial),
                    all - 1
                );
            } else {
                assert_eq!(answer, Err(Refusal::I13));
            }
        }
    }
}

/// So many rules for a command that do not meet, one for each low at most.
fn pieces(action: u8, count: u8) -> Vec<[u8; 7]> {
    (0..count)
        .map(|low| [action, 0, 0, low, low, 0, 255])
        .collect()
}

/// A sheet of two locations and two commands; both locations have so many rules for
/// the first command, and location 1 so many for the second.
fn crowded(first: u8, second: u8) -> Vec<u8> {
    let rules = pieces(0, first);
    let more = [pieces(0, first), pieces(1, second)].concat();
    sheet_of([2, 1, 2, 0], 1, &[&rules, &more])
}

#[test]
fn rules_at_the_limit() {
    // 2 times 4, times 2 times 4, are 64.
    let full = joined(&crowded(4, 0), &crowded(4, 0)).expect("64 rules are taken");
    assert_eq!(full.len(), 6 + 4 * 4 + 7 * 64);
    assert_eq!(sheet::read(&full).map(|it| it.transition_count()), Ok(64));
    // One more for the other command makes 65.
    require_refused(&crowded(4, 1), &crowded(4, 1), Refusal::I14);
    assert_eq!(
        automaton(&crowded(4, 1), &crowded(4, 0)).transition_count(),
        64
    );
    // 63 are 2 times 3 times 2 times 5, and 3 times 1.
    assert_eq!(
        automaton(&crowded(3, 3), &crowded(5, 1)).transition_count(),
        63
    );
    require_refused(&crowded(4, 13), &crowded(4, 5), Refusal::I14);
    // 256 and 1,024, of which a byte would keep nothing.
    require_refused(&crowded(8, 0), &crowded(8, 0), Refusal::I14);
    require_refused(&crowded(16, 0), &crowded(16, 0), Refusal::I14);
    // Rules without partners do not count.
    let one = sheet_of([1, 1, 2, 0], 1, &[&pieces(0, MAX_BOUND + 1)]);
    let other = sheet_of([1, 1, 2, 0], 1, &[&pieces(1, MAX_BOUND + 1)]);
    assert_eq!(automaton(&one, &other).transition_count(), 0);
    assert_eq!(automaton(&one, &bare_two()).transition_count(), 0);
}

/// One location and two commands, without rules.
fn bare_two() -> Vec<u8> {
    sheet_of([1, 1, 2, 0], 1, &[&[]])
}

#[test]
fn rules_by_products() {
    // In one location each, 5 times 13 rules are 65, and 8 times 8 are 64.
    let sheet = |count| sheet_of([1, 1, 1, 0], 1, &[&pieces(0, count)]);
    require_refused(&sheet(5), &sheet(13), Refusal::I14);
    require_refused(&sheet(13), &sheet(5), Refusal::I14);
    assert_eq!(automaton(&sheet(8), &sheet(8)).transition_count(), 64);
    assert_eq!(automaton(&sheet(2), &sheet(32)).transition_count(), 64);
    require_refused(&sheet(2), &sheet(33), Refusal::I14);
    let most = MAX_BOUND + 1;
    let joined = automaton(&sheet(1), &sheet(most));
    assert_eq!(joined.transition_count(), most.into());
    require_refused(&sheet(2), &sheet(most), Refusal::I14);
}

/// 16 locations and 64 rules fill the output.
#[test]
fn longest_sheet() {
    // Two rules for command 0 in each of 4 locations: 8 times 8 pairs.
    let rules = pieces(0, 8);
    let tables: Vec<&[[u8; 7]]> = rules.chunks(2).collect();
    let sheet = sheet_of([4, 1, 2, 3], 15, &tables);
    let mut output = vec![BEFORE; OUTPUT];
    assert_eq!(join(&sheet, &sheet, &mut output), Ok(518));
    let longest = sheet::read(&output).expect("it loads");
    assert_eq!((longest.locations, longest.initial), (16, 15));
    assert_eq!(longest.transition_count(), 64);
    assert_eq!(longest.accepting, u16::MAX);
}

#[test]
fn outputs_of_another_length() {
    let refused: &[u8] = &[0];
    let lengths = (0..520).chain([774, 1024, 1036, 65536 + 518]);
    for lent in lengths.filter(|lent| *lent != 518) {
        require_length(A, B, lent);
        require_length(refused, refused, lent);
    }
    // Whatever else is wrong.
    for lent in [0, 517, 519] {
        require_length(refused, B, lent);
        require_length(A, refused, lent);
        require_length(&bare(16), &bare_two(), lent);
        require_length(&bare(16), &bare(16), lent);
        require_length(&crowded(8, 0), &crowded(8, 0), lent);
    }
}

/// A sheet for each of its own refusals, each with one clock and two commands or
/// what comes nearest.
fn own() -> [(Refusal, Vec<u8>); 6] {
    [
        (Refusal::I1, vec![1, 1, 2, 0, 0]),
        (Refusal::I2, sheet_of([1, 3, 2, 0], 0, &[&[]])),
        (Refusal::I3, sheet_of([1, 1, 2, 1], 0, &[&[]])),
        (
            Refusal::I4,
            [sheet_of([1, 1, 2, 0], 0, &[&[]]), vec![0]].concat(),
        ),
        (Refusal::I5, sheet_of([1, 1, 2, 0], 0, &[&[always(2, 0)]])),
        (
            Refusal::I6,
            sheet_of([1, 1, 2, 0], 0, &[&[always(1, 0), always(1, 0)]]),
        ),
    ]
}

#[test]
fn own_refusals() {
    for (refusal, bytes) in own() {
        require_refused(&bytes, A, refusal);
        require_refused(A, &bytes, refusal);
    }
    require_refused(&[], A, Refusal::I1);
    require_refused(A, &[], Refusal::I1);
    require_refused(&[], &[], Refusal::I1);
    require_refused(&[1; 519], A, Refusal::I1);
    require_refused(A, &[1; 519], Refusal::I1);
}

#[test]
fn first_sheet_before_the_second() {
    for (first, one) in own() {
        for (_, other) in own() {
            require_refused(&one, &other, first);
        }
    }
}

/// Sheets with two commands, three, two clocks, many locations or many rules.
struct Later {
    three: Vec<u8>,
    clocks: Vec<u8>,
    clocks_three: Vec<u8>,
    wide: Vec<u8>,
    wide_three: Vec<u8>,
    crowded: Vec<u8>,
}

fn later() -> Later {
    let many = pieces(0, 9);
    let tables: Vec<&[[u8; 7]]> = vec![&[]; 9];
    let mut wide = tables.clone();
    wide[3] = &many;
    Later {
        three: sheet_of([1, 1, 3, 0], 1, &[&many]),
        clocks: sheet_of([1, 2, 2, 0], 1, &[&many]),
        clocks_three: sheet_of([1, 2, 3, 0], 1, &[&many]),
        wide: sheet_of([9, 1, 2, 0], 1, &wide),
        wide_three: sheet_of([9, 1, 3, 0], 1, &wide),
        crowded: sheet_of([2, 1, 2, 0], 1, &[&many, &[]]),
    }
}

#[test]
fn different_command_counts() {
    require_refused(A, &later().three, Refusal::I12);
    require_refused(&later().three, A, Refusal::I12);
    for (one, other) in [(1, 2), (2, 1), (1, 16), (16, 1), (15, 16)] {
        let sheet = |actions| sheet_of([1, 1, actions, 0], 1, &[&[]]);
        require_refused(&sheet(one), &sheet(other), Refusal::I12);
        assert_eq!(automaton(&sheet(one), &sheet(one)).actions, one);
    }
}

#[test]
fn more_than_two_clocks() {
    let clocks = &later().clocks;
    require_refused(A, clocks, Refusal::I13);
    require_refused(clocks, A, Refusal::I13);
    require_refused(clocks, clocks, Refusal::I13);
    require_refused(
        &sheet_of([1, 2, 2, 0], 0, &[&[]]),
        &bare_two(),
        Refusal::I13,
    );
}

/// Where two reasons hold, the earlier one is given.
#[test]
fn order_of_the_later_reasons() {
    let Later {
        three,
        clocks,
        clocks_three,
        wide,
        wide_three,
        crowded,
    } = later();
    // Own refusals before I-12: the refused sheet has other counts too.
    let twice: &[[u8; 7]] = &[always(1, 0), always(1, 0)];
    let meeting = sheet_of([9, 2, 3, 0], 0, &[twice; 9]);
    require_refused(&meeting, A, Refusal::I6);
    require_refused(A, &meeting, Refusal::I6);
    require_refused(&meeting, &wide, Refusal::I6);
    require_refused(&clocks, &meeting, Refusal::I6);
    // I-12 before I-13, for clocks and for locations, and before I-14.
    require_refused(A, &clocks_three, Refusal::I12);
    require_refused(&clocks_three, &clocks, Refusal::I12);
    require_refused(&wide, &wide_three, Refusal::I12);
    require_refused(&crowded, &three, Refusal::I12);
    // I-13 before I-14: 9 times 9 rules are 81.
    require_refused(&clocks, &crowded, Refusal::I13);
    require_refused(&crowded, &clocks, Refusal::I13);
    require_refused(&wide, &crowded, Refusal::I13);
    require_refused(&wide, &wide, Refusal::I13);
    // Each alone.
    require_refused(&crowded, &crowded, Refusal::I14);
    require_refused(A, &wide, Refusal::I13);
    assert!(joined(A, &crowded).is_ok());
}

/// All words of at most three events of two commands, at dates around the course
/// sheets' bounds.
fn short_words(loaded: u32) -> Vec<Vec<TimedAction>> {
    let dates = [0, 1, 4, 5, 8, 9, 10, 14, 15, 16, 20, 21];
    let mut words: Vec<Vec<TimedAction>> = vec![Vec::new()];
    let mut start = 0;
    for _ in 0..3 {
        let end = words.len();
        for place in start..end {
            let last = words[place].last().map_or(0, |timed| timed.date);
            for date in dates.map(|date| loaded + date) {
                for action in 0..2 {
                    if date >= last {
                        let mut word = words[place].clone();
                        word.push(TimedAction { action, date });
                        words.push(word);
                    }
                }
            }
        }
        start = end;
    }
    words
}

#[test]
fn runs_of_course_sheets() {
    for loaded in [0, 43_200] {
        let words = short_words(loaded);
        assert_eq!(words.len(), 1 + 2 * 12 + 4 * 78 + 8 * 364);
        for first in [A, B, C, D, E] {
            for second in [A, B, C, D, E] {
                let both = automaton(first, second);
                let [one, other] = [first, second].map(|bytes| sheet::read(bytes).expect("loads"));
                for word in &words {
                    let each = satisfies(&one, loaded, word) && satisfies(&other, loaded, word);
                    assert_eq!(satisfies(&both, loaded, word), each, "{word:?}");
                }
            }
        }
    }
}

#[test]
fn a_sheet_with_itself() {
    let words = short_words(0);
    for bytes in [A, B, C, D, E] {
        let alone = sheet::read(bytes).expect("loads");
        let twice = automaton(bytes, bytes);
        let taken = words.iter().filter(|word| satisfies(&alone, 0, word));
        assert!(taken.clone().count() > 2);
        let same = |word: &&Vec<TimedAction>| satisfies(&twice, 0, word);
        assert_eq!(words.iter().filter(same).count(), taken.count());
    }
}

#[test]
fn names_and_results_of_refusals() {
    let cases = [
        (Refusal::I1, "I-1", Some(-1)),
        (Refusal::I9, "I-9", Some(-9)),
        (Refusal::I12, "I-12", Some(-12)),
        (Refusal::I13, "I-13", Some(-13)),
        (Refusal::I14, "I-14", Some(-14)),
        (Refusal::S1, "S-1", None),
    ];
    for (refusal, name, result) in cases {
        assert_eq!(refusal.name(), name);
        assert_eq!(refusal.result(), result);
    }
}
