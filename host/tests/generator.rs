//! The generator's kinds: deterministic, and showing every answer, refusal
//! and lamp state often.

mod common;

use common::{automata, bare_answer, first_call, SEEDS};
use host::desk::{self, CALL, COLLECTION};
use host::generate::{kind_named, BLOCK, EARLIER_MOST, KINDS};
use host::limits::MAX_BOUND;
use host::monitor::{Answer, Monitor};
use host::sheet::{self, Automaton};
use host::tally::Tally;

/// Seeds per kind, from 0 on, that the gate compares.
const GATE: u64 = 300;

fn tally(name: &str) -> Tally {
    let kind = kind_named(name).expect("the kind exists");
    let mut tally = Tally::default();
    for seed in 0..SEEDS {
        tally.add(&desk::run(&kind.input(seed)));
    }
    tally
}

/// Requires each name at least so often in the lines of a kind.
fn require(kind: &str, least: &[(&str, u64)]) {
    let tally = tally(kind);
    for (name, count) in least {
        let found = tally.count(name);
        assert!(found >= *count, "{kind}: {name} only {found} times");
    }
    assert_eq!(tally.count("other"), 0);
}

#[test]
fn inputs_depend_on_kind_and_seed_alone() {
    for kind in KINDS {
        assert_eq!(kind.input(7), kind.input(7));
        assert!((0..20).any(|seed| kind.input(seed) != kind.input(seed + 1)));
    }
    assert_ne!(KINDS[0].input(3), KINDS[1].input(3));
    assert!(kind_named("no_such_kind").is_none());
}

#[test]
fn one_and_two_clocks() {
    for kind in ["one_clock", "two_clocks"] {
        let least = [
            ("sheet loaded", SEEDS),
            ("scheduled 1", 1000),
            ("scheduled 2 to 16", 200),
            ("held", 500),
            ("dropped", 1000),
            ("played", 1000),
            ("none", 500),
            ("lamp 0", 2000),
            ("lamp 1", 1000),
        ];
        require(kind, &least);
    }
    assert!(automata("one_clock").iter().all(|(_, it)| it.clocks == 1));
    assert!(automata("two_clocks").iter().all(|(_, it)| it.clocks == 2));
}

#[test]
fn deadlines() {
    let least = [
        ("scheduled 2 to 16", 200),
        ("held", 300),
        ("dropped", 500),
        ("lamp 0", 500),
        ("lamp 1", 1000),
    ];
    require("deadlines", &least);
}

#[test]
fn bound_edges() {
    let least = [
        ("sheet loaded", SEEDS),
        ("scheduled 1", 4000),
        ("scheduled 2 to 16", 350),
        ("held", 600),
        ("dropped", 1200),
        ("played", 4000),
        ("none", 1500),
        ("lamp 0", 10000),
        ("lamp 1", 900),
    ];
    require("bound_edges", &least);
}

#[test]
fn long_pending() {
    let least = [
        ("refused S-4", 200),
        ("scheduled 17", 50),
        ("scheduled 2 to 16", 300),
        ("held", 3000),
    ];
    require("long_pending", &least);
}

#[test]
fn long_two_clocks() {
    let least = [
        ("refused S-4", 200),
        ("scheduled 17", 30),
        ("scheduled 2 to 16", 300),
        ("held", 3000),
        ("dropped", 500),
        ("lamp 1", 100),
    ];
    require("long_two_clocks", &least);
}

#[test]
fn dated_lists() {
    let least = [
        ("sheet loaded", SEEDS),
        ("scheduled 17", 200),
        ("scheduled 2 to 16", 300),
        ("held", 6000),
        ("played", 6000),
    ];
    require("dated_lists", &least);
    assert!(automata("dated_lists").iter().all(|(_, it)| it.clocks == 2));
}

/// A number of a desk line by its place.
fn number(line: &str, place: usize) -> Option<usize> {
    line.split(' ').nth(place)?.parse().ok()
}

/// The dates that the lines show, and the lengths of the lists they are of.
fn shown(output: &str) -> (Vec<usize>, Vec<usize>) {
    let played = output.lines().filter(|line| line.contains(" played "));
    let scheduled = output.lines().filter(|line| line.contains(" scheduled "));
    (
        played.filter_map(|line| number(line, 3)).collect(),
        scheduled.filter_map(|line| number(line, 2)).collect(),
    )
}

#[test]
fn all_dates_of_long_lists_show() {
    let kind = kind_named("dated_lists").expect("the kind exists");
    let (mut long, mut several) = (0, 0);
    for seed in 0..SEEDS {
        let (mut dates, lengths) = shown(&desk::run(&kind.input(seed)));
        assert_eq!(dates.len(), lengths.iter().sum());
        assert!(lengths.iter().any(|length| *length >= 10));
        for length in lengths {
            let list: Vec<usize> = dates.drain(..length).collect();
            long += usize::from(length >= 10);
            several += usize::from(length >= 10 && list[0] < list[length - 1]);
        }
    }
    assert!(long >= 700 && several * 10 >= long * 8, "{several} {long}");
}

#[test]
fn full_schedule() {
    let least = [
        ("refused S-3", 2000),
        ("scheduled 1", 3000),
        ("scheduled 2 to 16", 300),
        ("played", 2000),
    ];
    require("full_schedule", &least);
}

#[test]
fn full_sheet() {
    let least = [("scheduled 1", 300), ("held", 300), ("lamp 0", 1000)];
    require("full_sheet", &least);
    for (length, automaton) in automata("full_sheet") {
        assert_eq!(length, 518);
        assert_eq!((automaton.locations, automaton.actions), (16, 16));
        assert_eq!(automaton.transition_count(), 64);
    }
}

#[test]
fn late() {
    let least = [
        ("refused S-2", 1000),
        ("refused I-8", 100),
        ("scheduled 1", 500),
        ("lamp 0", 1000),
        ("lamp 1", 500),
    ];
    require("late", &least);
}

#[test]
fn bad_sheet() {
    let least = [
        ("sheet refused I-1", 15),
        ("sheet refused I-2", 30),
        ("sheet refused I-3", 20),
        ("sheet refused I-4", 30),
        ("sheet refused I-5", 30),
        ("sheet refused I-6", 30),
        ("sheet loaded", 30),
    ];
    require("bad_sheet", &least);
}

#[test]
fn edge_sheet() {
    let least = [
        ("sheet refused I-2", 15),
        ("sheet refused I-3", 15),
        ("sheet refused I-4", 15),
        ("sheet refused I-5", 60),
        ("sheet refused I-6", 15),
        ("sheet loaded", 60),
    ];
    require("edge_sheet", &least);
}

#[test]
fn bad_calls() {
    let least = [
        ("refused I-7", 500),
        ("refused I-8", 200),
        ("refused S-1", 300),
        ("lamp 0", 500),
        ("lamp 1", 500),
    ];
    require("bad_calls", &least);
}

#[test]
fn tails_and_truncated() {
    let least = [
        ("tail 1", 40),
        ("tail 2", 40),
        ("tail 3", 40),
        ("tail 4", 40),
    ];
    require("tails", &least);
    let least = [
        ("sheet refused I-1", 50),
        ("tail 1", 15),
        ("tail 2", 15),
        ("tail 3", 15),
        ("tail 4", 15),
    ];
    require("truncated", &least);
}

/// How many calls the inputs of a kind have, and how many bytes are left over.
fn sizes(name: &str) -> Vec<(usize, usize)> {
    let kind = kind_named(name).expect("the kind exists");
    let size = |seed| {
        let input = kind.input(seed);
        let bytes = input.len() - first_call(&input);
        (bytes / CALL, bytes % CALL)
    };
    (0..SEEDS).map(size).collect()
}

#[test]
fn many_calls() {
    let least = [
        ("held", 15000),
        ("scheduled 1", 15000),
        ("scheduled 2 to 16", 5000),
        ("dropped", 5000),
        ("played", 30000),
        ("lamp 0", 150000),
        ("lamp 1", 5000),
    ];
    require("many_calls", &least);
    assert!(sizes("many_calls")
        .iter()
        .all(|(calls, _)| *calls > 5 * BLOCK));
}

#[test]
fn more_calls_than_16_bits_count() {
    let sizes = sizes("many_calls");
    let gate = sizes.iter().take(GATE as usize);
    assert!(gate.filter(|(calls, _)| *calls >= 66_000).count() >= 2);
    for (calls, _) in sizes {
        assert!(calls <= 6 * BLOCK || (66_000..=70_000).contains(&calls));
    }
}

/// The answers of an output, without the numbers of calls and offers.
fn answers(output: &str) -> Vec<String> {
    output.lines().skip(1).filter_map(bare_answer).collect()
}

/// A program that goes on from a fresh box is seen, however late it does.
#[test]
fn all_blocks_of_long_inputs_need_the_box() {
    let kind = kind_named("many_calls").expect("the kind exists");
    let inputs = (0..GATE).map(|seed| kind.input(seed));
    for input in inputs.filter(|input| input.len() > 66_000 * CALL) {
        let output = desk::run(&input);
        let right = answers(&output);
        let (front, calls) = input.split_at(first_call(&input));
        let blocks = calls.chunks(BLOCK * CALL).zip(right.chunks(BLOCK));
        for (number, (block, right)) in blocks.enumerate().skip(1) {
            let alone = desk::run(&[front, block].concat());
            assert_ne!(answers(&alone), right, "block {number}");
        }
    }
}

/// Whether actions are held after so many calls and the lamp is dark.
fn still_held(output: &str, calls: usize) -> bool {
    let lines: Vec<&str> = output.lines().take(1 + calls).collect();
    let is_held = |line: &&str| line.contains(" held ");
    let moved = |line: &&&str| is_held(line) || line.contains(" scheduled ");
    let last = lines.iter().rev().find(moved);
    last.is_some_and(is_held) && lines[calls].ends_with("lamp 0")
}

#[test]
fn held_lists_cross_the_ends_of_blocks() {
    for (name, ends, least) in [("many_calls", 1..=5, 80), ("whole_blocks", 1..=1, 80)] {
        let kind = kind_named(name).expect("the kind exists");
        let outputs: Vec<String> = (0..SEEDS)
            .map(|seed| desk::run(&kind.input(seed)))
            .collect();
        for end in ends.map(|blocks| BLOCK * blocks) {
            let long = outputs.iter().filter(|output| output.lines().count() > end);
            let found = long.filter(|output| still_held(output, end)).count();
            assert!(found >= least, "{name}: after {end} calls only {found}");
        }
    }
}

#[test]
fn whole_blocks() {
    let least = [
        ("held", 4000),
        ("scheduled 2 to 16", 2000),
        ("played", 8000),
    ];
    require("whole_blocks", &least);
    let sizes = sizes("whole_blocks");
    let count = |past: usize, tail: bool| {
        let fits = |(calls, left): &&(usize, usize)| calls % BLOCK == past && (*left > 0) == tail;
        sizes.iter().filter(fits).count()
    };
    // A call less, whole blocks, a call more; without and with a tail.
    for past in [BLOCK - 1, 0, 1] {
        assert!(count(past, false) >= 40 && count(past, true) >= 15);
    }
    for blocks in 1..=3 {
        assert!(sizes.contains(&(BLOCK * blocks, 0)));
    }
    assert!(sizes.iter().all(|(calls, _)| (calls + 1) % BLOCK <= 2));
}

/// What the played actions of an input show of their offers.
#[derive(Debug, Default)]
struct Offers {
    /// Dates that are later than that of the offer.
    later: u32,
    /// Offers that came before the one by which the action was scheduled, and at
    /// an earlier date.
    held: u32,
    /// Numbers that do not follow on that of the action played before: offers in
    /// between were dropped.
    gaps: u32,
    /// Offers after one that was refused.
    refused: u32,
}

/// Makes the calls of an input whose sheet loads.
fn count_offers(input: &[u8], shown: &mut Offers) {
    let (bytes, calls) = desk::split(input).expect("there is a sheet");
    let mut monitor = Monitor::new(sheet::read(bytes).expect("the sheet loads"), 0);
    // For each number the refused offers before it, and for each scheduled action
    // the date of the offer by which it was scheduled.
    let (mut refused, mut refused_before) = (0, vec![0]);
    let (mut completed, mut collected, mut last) = (Vec::new(), 0, 0);
    for call in calls.chunks_exact(CALL) {
        let date = u32::from_le_bytes([call[1], call[2], call[3], call[4]]);
        if call[0] != COLLECTION {
            match monitor.offer(call[0], date) {
                Answer::Refused(_) => refused += 1,
                _ => refused_before.push(refused),
            }
            completed.resize(monitor.history().len(), date);
        } else if let Answer::Played(played) = monitor.collect(date) {
            shown.later += u32::from(played.offered < played.date);
            shown.held += u32::from(played.offered < completed[collected]);
            shown.gaps += u32::from(played.number > last + 1);
            shown.refused += u32::from(refused_before[played.number as usize] > 0);
            (collected, last) = (collected + 1, played.number);
        }
    }
}

/// Programs that number other offers, or give a list those of its last action,
/// print other lines.
#[test]
fn numbers_and_dates_of_offers_show() {
    for (name, least) in [
        ("one_clock", [500, 250, 80, 200]),
        ("two_clocks", [600, 250, 100, 200]),
        ("deadlines", [600, 350, 30, 150]),
        ("bound_edges", [700, 180, 250, 0]),
        ("long_pending", [2000, 1500, 150, 900]),
        ("long_two_clocks", [2000, 1500, 150, 1000]),
        ("dated_lists", [3500, 2500, 0, 0]),
        ("full_schedule", [1500, 400, 150, 1500]),
        ("full_sheet", [400, 300, 150, 100]),
        ("late", [700, 150, 150, 800]),
        ("course", [300, 60, 30, 80]),
        ("bad_calls", [200, 80, 50, 500]),
        ("many_calls", [30000, 15000, 10000, 50000]),
        ("whole_blocks", [5000, 2500, 600, 7000]),
    ] {
        let kind = kind_named(name).expect("the kind exists");
        let mut shown = Offers::default();
        for seed in 0..GATE {
            count_offers(&kind.input(seed), &mut shown);
        }
        let found = [shown.later, shown.held, shown.gaps, shown.refused];
        let enough = found
            .iter()
            .zip(least)
            .all(|(found, least)| *found >= least);
        assert!(enough, "{name}: {shown:?}");
    }
}

#[test]
fn any_bytes() {
    let least = [
        ("sheet refused I-1", 30),
        ("sheet refused I-2", 10),
        ("sheet refused I-3", 5),
        ("sheet refused I-4", 5),
        ("sheet refused I-5", 10),
        ("sheet loaded", 10),
    ];
    require("any_bytes", &least);
}

#[test]
fn course() {
    let least = [
        ("sheet loaded", SEEDS),
        ("scheduled 1", 500),
        ("held", 200),
        ("dropped", 500),
    ];
    require("course", &least);
}

#[test]
fn automata_vary() {
    let mut all = automata("two_clocks");
    all.extend(automata("one_clock"));
    let count = |test: &dyn Fn(&Automaton) -> bool| all.iter().filter(|(_, it)| test(it)).count();
    assert!(count(&|it| it.locations == 1) >= 10);
    assert!(count(&|it| it.locations >= 9) >= 30);
    assert!(count(&|it| it.actions >= 7) >= 30);
    assert!(count(&|it| it.transition_count() == 64) >= 10);
    assert!(count(&|it| it.accepting == 0) >= 5);
    assert!(count(&|it| it.accepting.count_ones() >= 2) >= 100);
    let bounded_by = |it: &Automaton, bound: u8| {
        let rules = it.outgoing.iter().flatten();
        let guards = rules.flat_map(|rule| rule.guards);
        guards
            .filter_map(|guard| guard.high)
            .any(|high| high == bound)
    };
    assert!(count(&|it| bounded_by(it, MAX_BOUND)) >= 50);
    assert!(count(&|it| bounded_by(it, EARLIER_MOST)) >= 50);
    assert!(count(&|it| bounded_by(it, 0)) >= 50);
}
