//! Random pairs of sheets and the comparison of programs that join them: the kinds
//! show what they are there for, and every wrong program is found.

use host::limits::MAX_BOUND;
use host::product::compare::{compare, Summary};
use host::product::words::{taken, words, Taken};
use host::product::{
    clock_count, join, kind_named, location_count, reason, rule_count, Case, Joiner, KINDS, OUTPUT,
};
use host::random::Random;
use host::refusal::Refusal;
use host::sheet::{self, Automaton};
use std::fs;

/// Seeds of each kind over which occurrences are counted.
const SEEDS: u64 = 400;

fn cases(name: &str) -> Vec<Case> {
    let kind = kind_named(name).expect("the kind exists");
    (0..SEEDS).map(|seed| kind.case(seed)).collect()
}

fn answer(case: &Case) -> Result<usize, Refusal> {
    let [first, second] = &case.sheets;
    join(first, second, &mut case.output.clone())
}

/// How many cases of a kind are so.
fn count(name: &str, is_so: impl Fn(&Case) -> bool) -> usize {
    cases(name).iter().filter(|case| is_so(case)).count()
}

/// Both automata, if both sheets load.
fn automata(case: &Case) -> Option<[Automaton; 2]> {
    let [first, second] = case.sheets.each_ref().map(|bytes| sheet::read(bytes).ok());
    Some([first?, second?])
}

/// A number of two automata, 0 if they do not load.
fn number_of(case: &Case, number: fn(&Automaton, &Automaton) -> usize) -> usize {
    automata(case).map_or(0, |[first, second]| number(&first, &second))
}

#[test]
fn cases_depend_on_kind_and_seed_alone() {
    for kind in KINDS {
        assert_eq!(kind.case(7), kind.case(7));
        assert!((0..20).any(|seed| kind.case(seed) != kind.case(seed + 1)));
        assert!(kind_named(kind.name).is_some_and(|found| found.name == kind.name));
    }
    assert!(kind_named("no_such_kind").is_none());
}

#[test]
fn pairs_that_are_joined() {
    for name in ["small", "matching", "course", "largest"] {
        assert_eq!(
            count(name, |case| answer(case).is_ok()),
            SEEDS as usize,
            "{name}"
        );
    }
    let counts = |case: &Case| automata(case).map(|both| both.map(|it| it.locations));
    assert!(
        count("small", |case| counts(case)
            .is_some_and(|[one, other]| one > other))
            > 80
    );
    assert!(
        count("small", |case| counts(case)
            .is_some_and(|[one, other]| one < other))
            > 80
    );
    // Both have several transitions of one location for one action.
    let several = |automaton: &Automaton| {
        automaton.outgoing.iter().any(|rules| {
            let of = |action| rules.iter().filter(|rule| rule.action == action).count();
            (0..automaton.actions).any(|action| of(action) > 1)
        })
    };
    let both = |case: &Case| automata(case).is_some_and(|both| both.iter().all(several));
    assert!(count("matching", both) > 200);
    assert!(count("matching", |case| number_of(case, rule_count) > 30) > 80);
}

/// Sheets have the bounds above 30 about as often as others.
#[test]
fn large_bounds() {
    for name in ["small", "matching", "largest", "near_64_rules"] {
        let has = |bound: u8| {
            move |case: &Case| {
                let both = automata(case).expect("both load");
                let rules = both.iter().flat_map(|it| it.outgoing.iter().flatten());
                let mut guards = rules.map(|rule| rule.guards[0]);
                guards.any(|guard| guard.low == bound || guard.high == Some(bound))
            }
        };
        let counts: Vec<usize> = (0..=MAX_BOUND).map(|it| count(name, has(it))).collect();
        let ordinary = counts[15..25].iter().sum::<usize>() / 10;
        let mut large = counts[31..].iter();
        assert!(
            large.all(|it| *it * 4 >= ordinary * 3),
            "{name}: {counts:?}"
        );
    }
}

#[test]
fn largest_products() {
    assert!(cases("largest")
        .iter()
        .all(|case| number_of(case, location_count) == 16));
    assert!(count("largest", |case| answer(case) == Ok(OUTPUT)) > 120);
    for wanted in [63, 64, 65] {
        let is_it = |case: &Case| number_of(case, rule_count) == wanted;
        assert!(count("near_64_rules", is_it) > 40, "{wanted}");
    }
    let ways = [[1, 16], [2, 8], [4, 4], [8, 2], [16, 1]];
    for way in ways {
        let is_it = |case: &Case| {
            automata(case).is_some_and(|both| both.each_ref().map(|it| it.locations) == way)
        };
        assert!(count("largest", is_it) > 20, "{way:?}");
    }
}

#[test]
fn too_many() {
    let refused = |refusal| move |case: &Case| answer(case) == Err(refusal);
    assert_eq!(count("too_many_rules", refused(Refusal::I14)), 400);
    assert_eq!(count("many_locations", refused(Refusal::I13)), 400);
    assert_eq!(count("two_clocks", refused(Refusal::I13)), 400);
    assert_eq!(count("other_commands", refused(Refusal::I12)), 400);
    let rules = |wanted: fn(usize) -> bool| {
        count("too_many_rules", |case| wanted(number_of(case, rule_count)))
    };
    assert!(rules(|all| all == 65) > 60);
    assert!(rules(|all| all == 4096) > 15);
    // A byte would take these for at most 64.
    assert!(rules(|all| all > 64 && all % 256 <= 64) > 60);
    let locations = |wanted| {
        count("many_locations", |case| {
            number_of(case, location_count) == wanted
        })
    };
    assert!(locations(18) > 60 && locations(256) > 60);
    // Nothing but the locations is wrong with most of these.
    let alone = |case: &Case| number_of(case, rule_count) <= 64;
    assert_eq!(count("many_locations", alone), 400);
    let one = |case: &Case| number_of(case, clock_count) == 3;
    assert!(count("two_clocks", one) > 200);
    assert!(count("two_clocks", |case| number_of(case, clock_count) == 4) > 80);
}

/// The later reasons that hold, in the order of their tests.
fn later(case: &Case) -> Vec<&'static str> {
    let Some([first, second]) = automata(case) else {
        return Vec::new();
    };
    let reasons = [
        (first.actions != second.actions, "actions"),
        (clock_count(&first, &second) > 2, "clocks"),
        (location_count(&first, &second) > 16, "locations"),
        (rule_count(&first, &second) > 64, "rules"),
    ];
    let reasons = reasons.into_iter().filter(|(holds, _)| *holds);
    reasons.map(|(_, name)| name).collect()
}

#[test]
fn several_later_reasons() {
    assert!(cases("later_reasons")
        .iter()
        .all(|case| later(case).len() >= 2));
    for pair in [
        ["actions", "clocks"],
        ["actions", "locations"],
        ["actions", "rules"],
        ["clocks", "rules"],
        ["locations", "rules"],
        ["clocks", "locations"],
    ] {
        let alone = |case: &Case| later(case) == pair;
        assert!(count("later_reasons", alone) > 15, "{pair:?}");
    }
}

const OWN: [Refusal; 6] = [
    Refusal::I1,
    Refusal::I2,
    Refusal::I3,
    Refusal::I4,
    Refusal::I5,
    Refusal::I6,
];

#[test]
fn refused_sheets() {
    let refused = |place: usize| {
        move |case: &Case, refusal| sheet::read(&case.sheets[place]).err() == Some(refusal)
    };
    let (first, second) = (refused(0), refused(1));
    for refusal in OWN {
        let alone = |case: &Case| first(case, refusal) && sheet::read(&case.sheets[1]).is_ok();
        assert!(count("first_refused", alone) > 40, "{refusal}");
        let alone = |case: &Case| second(case, refusal) && sheet::read(&case.sheets[0]).is_ok();
        assert!(count("second_refused", alone) > 40, "{refusal}");
        for other in OWN {
            let both = |case: &Case| first(case, refusal) && second(case, other);
            assert!(count("both_refused", both) > 2, "{refusal} {other}");
        }
    }
    let edges = |place: usize| {
        count("edge_sheets", |case| {
            sheet::read(&case.sheets[place]).is_err()
        })
    };
    assert!(edges(0) > 40 && edges(1) > 40);
    assert!(count("edge_sheets", |case| answer(case).is_ok()) > 40);
}

#[test]
fn outputs_of_another_length() {
    let all = cases("other_output");
    assert!(all.iter().all(|case| answer(case) == Err(Refusal::I9)));
    for lent in [0, 517, 519] {
        let is_it = |case: &Case| case.output.len() == lent;
        assert!(count("other_output", is_it) > 15, "{lent}");
    }
    // What the sheets would get with a right output.
    let else_ = |case: &Case| {
        let [first, second] = &case.sheets;
        join(first, second, &mut [0; OUTPUT]).err()
    };
    assert!(count("other_output", |case| else_(case).is_none()) > 80);
    for refusal in [Refusal::I1, Refusal::I6, Refusal::I12, Refusal::I13] {
        assert!(count("other_output", |case| else_(case) == Some(refusal)) > 5);
    }
}

/// What joins, and what it does otherwise than it should.
struct Wrong {
    join: fn(&[u8], &[u8], &mut [u8]) -> i32,
    check: fn(&[u8]) -> i32,
}

impl Joiner for Wrong {
    fn join(&self, first: &[u8], second: &[u8], output: &mut [u8]) -> i32 {
        (self.join)(first, second, output)
    }

    fn check(&self, sheet: &[u8]) -> i32 {
        (self.check)(sheet)
    }
}

fn result(refusal: Refusal) -> i32 {
    refusal.result().expect("it is one of the input")
}

fn right(first: &[u8], second: &[u8], output: &mut [u8]) -> i32 {
    join(first, second, output).map_or_else(result, |length| length as i32)
}

fn check(bytes: &[u8]) -> i32 {
    sheet::read(bytes).map_or_else(result, |_| 0)
}

/// Joins with a right output, and gives the answer alone.
fn answered(first: &[u8], second: &[u8]) -> i32 {
    right(first, second, &mut [0; OUTPUT])
}

/// Compares all kinds for as many seeds as must show everything.
fn compare_all(joiner: &Wrong) -> Result<Summary, String> {
    compare(joiner, KINDS, 0, 100).map_err(|difference| {
        // Another test may have found the same sheets and removed them.
        for path in difference.sheets.iter().flatten() {
            let _ = fs::remove_file(path);
        }
        difference.to_string()
    })
}

#[test]
fn right_program_shows_everything() {
    let summary = compare_all(&Wrong { join: right, check }).expect("there is no difference");
    assert_eq!(summary.pairs, 100 * KINDS.len() as u64);
    assert_eq!(summary.missing(), [""; 0]);
    let names = [
        "joined",
        "I-9",
        "I-12",
        "I-13, clocks",
        "I-13, locations",
        "I-14",
    ];
    for name in names {
        assert!(summary.count(name) > 50, "{name}");
    }
    for reason in OWN {
        for which in ["first", "second"] {
            let name = format!("{reason} of the {which} sheet");
            assert!(summary.count(&name) > 10, "{name}");
        }
    }
    let all: u64 = Taken::ALL
        .map(|taken| summary.count(taken.name()))
        .iter()
        .sum();
    assert_eq!(all, summary.words);
    for taken in Taken::ALL {
        assert!(
            summary.count(taken.name()) > summary.words / 10,
            "{taken:?}"
        );
    }
    let start = format!(
        "no difference: {} pairs, {} words\n",
        summary.pairs, summary.words
    );
    let text = summary.to_string();
    assert!(text.starts_with(&start), "{text}");
    assert_eq!(text.lines().count(), 1 + 2 + 12 + 5 + 4);
}

#[test]
fn what_is_missing_is_named() {
    let kinds = kind_named("other_commands").into_iter();
    let summary = compare(&Wrong { join: right, check }, kinds, 5, 30).expect("no difference");
    let missing = summary.missing();
    assert!(missing.contains(&"joined".into()));
    assert!(missing.contains(&"I-1 of the first sheet".into()));
    assert!(missing.contains(&"words that only the second takes".into()));
    assert_eq!(missing.len(), 22);
    assert_eq!(summary.count("I-12"), 30);
}

/// Requires that a difference is found, and what it tells.
fn require_found(join: fn(&[u8], &[u8], &mut [u8]) -> i32, problem: &str) {
    let text = compare_all(&Wrong { join, check }).expect_err("it is wrong");
    assert!(text.starts_with("difference: kind "), "{text}");
    assert!(text.contains(problem), "{text}");
    assert!(text.contains("\n  expected: ") && text.contains("\n  found:    "));
}

/// The rules of a joined sheet, each to be changed.
fn rules_mut(sheet: &mut [u8]) -> impl Iterator<Item = &mut [u8]> {
    let start = 6 + 4 * usize::from(sheet[0]);
    sheet[start..].chunks_mut(7)
}

/// Joins rightly and changes the joined sheet, if there is one.
fn changing(first: &[u8], second: &[u8], output: &mut [u8], change: impl Fn(&mut [u8])) -> i32 {
    let result = right(first, second, output);
    if let Ok(length) = usize::try_from(result) {
        change(&mut output[..length]);
    }
    result
}

#[test]
fn sheets_the_other_way_round() {
    let wrong = |first: &[u8], second: &[u8], output: &mut [u8]| match answered(first, second) {
        length if length > 0 => right(second, first, output),
        refused => refused,
    };
    require_found(wrong, "of the output is ");
}

#[test]
fn rules_in_the_second_order() {
    let wrong = |first: &[u8], second: &[u8], output: &mut [u8]| {
        changing(first, second, output, |sheet| {
            let starts = 6..6 + 4 * usize::from(sheet[0]);
            for pair in starts.step_by(4) {
                let two = |at: usize| usize::from(sheet[at]) + 256 * usize::from(sheet[at + 1]);
                let (offset, length) = (two(pair), two(pair + 2));
                let (rules, _) = sheet[offset..offset + length].as_chunks_mut::<7>();
                rules.sort_by_key(|rule| rule[0]);
            }
        })
    };
    require_found(wrong, "of the output is ");
}

#[test]
fn fields_of_the_clocks_exchanged() {
    let resets = |first: &[u8], second: &[u8], output: &mut [u8]| {
        changing(first, second, output, |sheet| {
            rules_mut(sheet).for_each(|rule| rule[2] = rule[2] >> 1 | (rule[2] & 1) << 1);
        })
    };
    require_found(resets, "of the output is ");
    let bounds = |first: &[u8], second: &[u8], output: &mut [u8]| {
        changing(first, second, output, |sheet| {
            rules_mut(sheet).for_each(|rule| rule[3..7].rotate_left(2));
        })
    };
    require_found(bounds, "of the output is ");
}

#[test]
fn clock_count_kept() {
    let wrong = |first: &[u8], second: &[u8], output: &mut [u8]| {
        changing(first, second, output, |sheet| sheet[1] = 1)
    };
    require_found(wrong, "byte 1 of the output is 1, not 2");
}

#[test]
fn accepting_where_one_accepts() {
    let wrong = |first: &[u8], second: &[u8], output: &mut [u8]| {
        let sheets = [first, second].map(sheet::read);
        changing(first, second, output, |joined| {
            let [Ok(first), Ok(second)] = &sheets else {
                return;
            };
            let mut set = 0u16;
            for i in 0..first.locations {
                for j in 0..second.locations {
                    let either = first.is_accepting(i) || second.is_accepting(j);
                    set |= u16::from(either) << (i * second.locations + j);
                }
            }
            joined[4..6].copy_from_slice(&set.to_le_bytes());
        })
    };
    require_found(wrong, "of the output is ");
}

#[test]
fn initial_location_forgotten() {
    let wrong = |first: &[u8], second: &[u8], output: &mut [u8]| {
        changing(first, second, output, |sheet| sheet[3] = 0)
    };
    require_found(wrong, "byte 3 of the output is 0, not ");
}

#[test]
fn rest_of_the_output_left() {
    let wrong = |first: &[u8], second: &[u8], output: &mut [u8]| {
        let before = output.to_vec();
        let result = right(first, second, output);
        if let Ok(length) = usize::try_from(result) {
            output[length..].copy_from_slice(&before[length..]);
        }
        result
    };
    require_found(wrong, ", not 0");
}

#[test]
fn output_cleared_first() {
    let wrong = |first: &[u8], second: &[u8], output: &mut [u8]| {
        if output.len() == OUTPUT {
            output.fill(0);
        }
        right(first, second, output)
    };
    require_found(wrong, " of the output is 0, not ");
}

#[test]
fn written_before_a_late_refusal() {
    let wrong = |first: &[u8], second: &[u8], output: &mut [u8]| {
        let result = right(first, second, output);
        if result == -14 {
            output[0] = output[0].wrapping_add(1);
        }
        result
    };
    require_found(wrong, "byte 0 of the output is ");
}

/// The tests in another order: a later reason is given where it holds too.
#[test]
fn refusals_in_another_order() {
    let length_last = |first: &[u8], second: &[u8], output: &mut [u8]| match answered(first, second)
    {
        refused if refused < 0 => refused,
        _ => right(first, second, output),
    };
    require_found(length_last, "expected: refused with I-9");
    let second_first = |first: &[u8], second: &[u8], output: &mut [u8]| match check(second) {
        refused if refused < 0 && output.len() == OUTPUT => refused,
        _ => right(first, second, output),
    };
    require_found(second_first, "the results differ");
    let actions_first = |first: &[u8], second: &[u8], output: &mut [u8]| {
        let result = right(first, second, output);
        let differ = first.get(2) != second.get(2);
        if differ && (-6..0).contains(&result) && check(first) == 0 {
            -12
        } else {
            result
        }
    };
    require_found(actions_first, "found:    refused with I-12");
    let clocks_first =
        |first: &[u8], second: &[u8], output: &mut [u8]| match right(first, second, output) {
            -12 if first[1] + second[1] > 2 => -13,
            result => result,
        };
    require_found(clocks_first, "found:    refused with I-13");
    let locations_first = |first: &[u8], second: &[u8], output: &mut [u8]| {
        let all = |first: &[u8]| usize::from(first[0]) * usize::from(second[0]);
        match right(first, second, output) {
            -12 if all(first) > 16 => -13,
            result => result,
        }
    };
    require_found(locations_first, "found:    refused with I-13");
    let rules_first = |first: &[u8], second: &[u8], output: &mut [u8]| {
        let result = right(first, second, output);
        match [first, second].map(sheet::read) {
            [Ok(one), Ok(other)] if result == -13 && rule_count(&one, &other) > 64 => -14,
            _ => result,
        }
    };
    require_found(rules_first, "found:    refused with I-14");
}

#[test]
fn limits_beside_their_places() {
    fn joined_rules(first: &[u8], second: &[u8]) -> usize {
        match [first, second].map(sheet::read) {
            [Ok(one), Ok(other)] => rule_count(&one, &other),
            _ => 0,
        }
    }
    let fewer = |first: &[u8], second: &[u8], output: &mut [u8]| {
        let full = answered(first, second) > 0 && joined_rules(first, second) == 64;
        match full && output.len() == OUTPUT {
            true => -14,
            false => right(first, second, output),
        }
    };
    require_found(fewer, "found:    refused with I-14");
    let byte = |first: &[u8], second: &[u8], output: &mut [u8]| match right(first, second, output) {
        -14 if joined_rules(first, second) % 256 <= 64 => 6,
        result => result,
    };
    require_found(byte, "expected: refused with I-14");
    let each = |first: &[u8], second: &[u8], output: &mut [u8]| match right(first, second, output) {
        -14 if joined_rules(first, second) == 65 => 6,
        result => result,
    };
    require_found(each, "expected: refused with I-14");
    let locations =
        |first: &[u8], second: &[u8], output: &mut [u8]| match right(first, second, output) {
            -13 if first[1] + second[1] == 2 && first[0].wrapping_mul(second[0]) <= 16 => 6,
            result => result,
        };
    require_found(locations, "expected: refused with I-13");
    let sixteen = |first: &[u8], second: &[u8], output: &mut [u8]| {
        let full = answered(first, second) > 0 && first[0] * second[0] == 16;
        match full && output.len() == OUTPUT {
            true => -13,
            false => right(first, second, output),
        }
    };
    require_found(sixteen, "found:    refused with I-13");
    let clocks = |first: &[u8], second: &[u8], output: &mut [u8]| match right(first, second, output)
    {
        -13 if first[1] == 1 && second[1] == 2 => 6,
        result => result,
    };
    require_found(clocks, "expected: refused with I-13");
}

#[test]
fn answer_a_rule_short() {
    let wrong = |first: &[u8], second: &[u8], output: &mut [u8]| {
        let result = right(first, second, output);
        let few = match [first, second].map(sheet::read) {
            [Ok(one), Ok(other)] => rule_count(&one, &other) < 2,
            _ => true,
        };
        if result > 0 && !few {
            result - 7
        } else {
            result
        }
    };
    require_found(wrong, "the results differ");
}

#[test]
fn wrong_checks() {
    let join = right;
    let nothing = |_: &[u8]| 0;
    let text = compare_all(&Wrong {
        join,
        check: nothing,
    });
    let text = text.expect_err("it is wrong");
    assert!(text.contains("the check of the first sheet says 0, not -"));
    let later = |bytes: &[u8]| match check(bytes) {
        -6 => 0,
        result => result,
    };
    let text = compare_all(&Wrong { join, check: later }).expect_err("it is wrong");
    assert!(text.contains(" sheet says 0, not -6"), "{text}");
}

#[test]
fn numbers_that_mean_nothing() {
    require_found(|_, _, _| -7, "found:    result -7");
    require_found(|_, _, _| 100_000, "found:    result 100000");
    assert_eq!(reason(-7), None);
    assert_eq!(reason(0), None);
    assert_eq!(reason(-13), Some(Refusal::I13));
    assert_eq!(reason(-10), None);
}

/// The sheets that differ are at hand.
#[test]
fn differing_sheets_are_written() {
    let wrong = Wrong {
        join: |_, _, _| -12,
        check,
    };
    let difference = compare(&wrong, KINDS, 4711, 1).expect_err("it is wrong");
    assert_eq!((difference.kind, difference.seed), ("small", 4711));
    let paths = difference.sheets.as_ref().expect("they were written");
    let written = paths.each_ref().map(|path| {
        let bytes = fs::read(path).expect("a sheet can be read");
        fs::remove_file(path).expect("a sheet can be removed");
        bytes
    });
    assert_eq!(written, KINDS[0].case(4711).sheets);
    let end = format!("second sheet: {}", paths[1].display());
    assert!(difference.to_string().ends_with(&end));
}

/// A change of a joined sheet.
type Change = fn(&mut [u8]);

/// In how many of a hundred cases words alone tell a changed product from a right
/// one.
fn told_apart(name: &str, change: Change) -> usize {
    let cases = cases(name).into_iter().take(100).zip(0..);
    let differs = |(case, seed): &(Case, u64)| {
        let [first, second] = &case.sheets;
        let mut output = [0; OUTPUT];
        let length = join(first, second, &mut output).expect("they are joined");
        change(&mut output[..length]);
        let sheets = automata(case).expect("both load");
        let Ok(joined) = sheet::read(&output[..length]) else {
            return true;
        };
        let words = words(&mut Random::new(*seed), &sheets, &joined);
        words
            .iter()
            .any(|word| taken(&sheets, &joined, word).is_err())
    };
    cases.filter(differs).count()
}

#[test]
fn words_tell_products_apart() {
    let exchanged = |sheet: &mut [u8]| rules_mut(sheet).for_each(|rule| rule[3..7].rotate_left(2));
    let unbounded = |sheet: &mut [u8]| rules_mut(sheet).for_each(|rule| rule[6] = 255);
    let low = |sheet: &mut [u8]| {
        let later = rules_mut(sheet).filter(|rule| rule[4] == 255 && rule[3] < MAX_BOUND);
        later.for_each(|rule| rule[3] += 1);
    };
    let large_low = |sheet: &mut [u8]| {
        let is_large = |rule: &&mut [u8]| rule[4] == 255 && (31..MAX_BOUND).contains(&rule[3]);
        rules_mut(sheet)
            .filter(is_large)
            .for_each(|rule| rule[3] += 1);
    };
    let reset = |sheet: &mut [u8]| rules_mut(sheet).for_each(|rule| rule[2] |= 2);
    let kept = |sheet: &mut [u8]| rules_mut(sheet).for_each(|rule| rule[2] &= 1);
    let accepting = |sheet: &mut [u8]| {
        let all = (1u32 << sheet[0]) - 1;
        sheet[4..6].copy_from_slice(&all.to_le_bytes()[..2]);
    };
    let nowhere = |sheet: &mut [u8]| sheet[4..6].fill(0);
    let changes: [(&str, Change, usize); 9] = [
        ("nothing", |_| {}, 0),
        ("bounds exchanged", exchanged, 20),
        ("no bounds above for clock 2", unbounded, 20),
        ("lows raised", low, 20),
        ("lows above 30 raised", large_low, 10),
        ("all resets", reset, 20),
        ("no resets of clock 2", kept, 20),
        ("all accepting", accepting, 20),
        ("none accepting", nowhere, 20),
    ];
    for (name, change, least) in changes {
        let found = told_apart("matching", change);
        assert!(
            found >= least && (least > 0 || found == 0),
            "{name}: {found}"
        );
    }
}
