//! The kind `bound_edges` has guards of every case of document 02's bound test,
//! and calls at their ends.

mod common;

use common::{automata, fresh, refused, scheduled, SEEDS};
use host::desk::{self, CALL, COLLECTION};
use host::generate::kind_named;
use host::limits::MAX_BOUND;
use host::monitor::{Answer, Monitor};
use host::refusal::Refusal;
use host::runs::Reached;
use host::sheet::{Automaton, Interval, Transition};

/// The cases of document 02's bound test: at least, exactly, at most, between.
const CASES: usize = 4;

/// The first case that fits a guard: no upper bound, low equal to high, low zero,
/// and the rest.
fn case(guard: &Interval) -> usize {
    match guard.high {
        None => 0,
        Some(high) if guard.low == high => 1,
        Some(_) if guard.low == 0 => 2,
        Some(_) => 3,
    }
}

/// The guards of an automaton's clocks, each with whether its clock is reset.
fn guards(automaton: &Automaton) -> Vec<(Interval, bool)> {
    let clocks = usize::from(automaton.clocks);
    let rules = automaton.outgoing.iter().flatten();
    let sides = rules.flat_map(|rule| rule.guards.into_iter().zip(rule.resets).take(clocks));
    sides.collect()
}

#[test]
fn guards_of_every_case() {
    let automata = automata("bound_edges");
    for clocks in 1..=2 {
        let fitting = automata.iter().filter(|(_, it)| it.clocks == clocks);
        assert!(fitting.count() >= 150);
    }
    let all: Vec<(Interval, bool)> = automata.iter().flat_map(|(_, it)| guards(it)).collect();
    // So many with a reset of the clock and so many without.
    let enough = |test: &dyn Fn(&Interval) -> bool, least: usize| {
        let count = |reset| all.iter().filter(|it| it.1 == reset && test(&it.0)).count();
        let counts = [true, false].map(count);
        assert!(counts.iter().all(|count| *count >= least), "{counts:?}");
    };
    for (number, least) in [600, 300, 250, 250].into_iter().enumerate() {
        enough(&|guard| case(guard) == number, least);
    }
    let last = MAX_BOUND;
    let corners = [
        [0, 0],
        [0, last],
        [0, 255],
        [last, last],
        [last, 255],
        [last - 1, last],
    ];
    for [low, high] in corners {
        enough(&|guard| *guard == Interval::from_bytes(low, high), 25);
    }
    enough(&|guard| *guard == Interval::from_bytes(1, last), 10);
    // Around the bound that was the largest.
    for bound in [30, 31] {
        for [low, high] in [[0, bound], [bound, bound], [bound, 255]] {
            enough(&|guard| *guard == Interval::from_bytes(low, high), 10);
        }
    }
}

/// Counts for each case of a guard.
type Counts = [[u32; 4]; CASES];

/// Counts what holds for a guard.
fn add(counts: &mut Counts, guard: &Interval, holds: [bool; 4]) {
    for (count, holds) in counts[case(guard)].iter_mut().zip(holds) {
        *count += u32::from(holds);
    }
}

/// Requires each count at least so large.
fn require_counts(found: &Counts, least: &Counts) {
    let mut pairs = found.iter().flatten().zip(least.iter().flatten());
    assert!(pairs.all(|(found, least)| found >= least), "{found:?}");
}

/// Whether a reading is one below low, low, high, one above high.
fn ends(guard: &Interval, reading: u32) -> [bool; 4] {
    let (low, high) = (u32::from(guard.low), guard.high.map(u32::from));
    let above = high.map(|high| high + 1);
    [
        reading + 1 == low,
        reading == low,
        Some(reading) == high,
        Some(reading) == above,
    ]
}

/// The calls of an input whose sheet loads: the box before, first byte and date.
fn calls(input: &[u8]) -> Vec<(Monitor, u8, u32)> {
    let (bytes, calls) = desk::split(input).expect("there is a sheet");
    let mut monitor = fresh(bytes);
    let mut list = Vec::new();
    for call in calls.chunks_exact(CALL) {
        let date = u32::from_le_bytes([call[1], call[2], call[3], call[4]]);
        list.push((monitor.clone(), call[0], date));
        match call[0] {
            COLLECTION => monitor.collect(date),
            action => monitor.offer(action, date),
        };
    }
    list
}

/// The offers or the collections of the kind's inputs.
fn edge_calls(collections: bool) -> impl Iterator<Item = (Monitor, u8, u32)> {
    let kind = kind_named("bound_edges").expect("the kind exists");
    let all = (0..SEEDS).flat_map(|seed| calls(&kind.input(seed)));
    all.filter(move |(_, first, _)| (*first == COLLECTION) == collections)
}

/// Where the first action of a list that is dated from a date on finds the box.
fn standing(monitor: &Monitor, date: u32) -> Reached {
    let reached = monitor.reached();
    let first = date.max(reached.date);
    reached.wait_until(first).expect("dates do not fall")
}

/// The transitions of the location for the action that comes next: the oldest
/// held one, else one that is offered, else any.
fn next(monitor: &Monitor, offered: Option<u8>) -> Vec<Transition> {
    let held = monitor.pending_actions();
    let next = held.first().copied().or(offered);
    let location = usize::from(monitor.reached().configuration.location);
    let rules = monitor.automaton().outgoing[location].iter();
    let fitting = rules.filter(|rule| next.is_none_or(|action| rule.action == action));
    fitting.copied().collect()
}

/// Their guards, with the readings from a date on.
fn readings(monitor: &Monitor, offered: Option<u8>, date: u32) -> Vec<(Interval, u32)> {
    let clocks = usize::from(monitor.automaton().clocks);
    let readings = standing(monitor, date).configuration.valuation;
    let rules = next(monitor, offered).into_iter();
    let sides = rules.flat_map(|rule| rule.guards.into_iter().zip(readings).take(clocks));
    sides.collect()
}

#[test]
fn offers_at_the_ends_of_guards() {
    let (mut at_ends, mut at_limits) = (Counts::default(), Counts::default());
    let last = u32::from(MAX_BOUND);
    for (monitor, action, date) in edge_calls(false) {
        for (guard, reading) in readings(&monitor, Some(action), date) {
            add(&mut at_ends, &guard, ends(&guard, reading));
            let limits = [
                reading == 0,
                reading == last,
                reading == last + 1,
                reading > 60,
            ];
            add(&mut at_limits, &guard, limits);
        }
    }
    let least = [
        [400, 2000, 0, 0],
        [300, 700, 700, 350],
        [0, 450, 300, 300],
        [300, 250, 300, 250],
    ];
    require_counts(&at_ends, &least);
    let least = [
        [1500, 400, 200, 1000],
        [400, 250, 80, 100],
        [450, 140, 60, 100],
        [250, 250, 140, 80],
    ];
    require_counts(&at_limits, &least);
}

/// The guard that alone decides an offer, and the reading: nothing is held, the
/// only transition leads to an accepting location, and the guard of the other
/// clock has no bounds.
fn deciding(monitor: &Monitor, action: u8, date: u32) -> Option<(Interval, u32)> {
    let [only] = next(monitor, Some(action))[..] else {
        return None;
    };
    let whole = Interval::from_bytes(0, 255);
    let clock = usize::from(only.guards[1] != whole);
    let decides = monitor.pending().is_empty()
        && monitor.automaton().is_accepting(only.target)
        && only.guards[1 - clock] == whole;
    let reading = standing(monitor, date).configuration.valuation[clock];
    decides.then_some((only.guards[clock], reading))
}

/// Both ends are included: an offer a tick before is delayed by a tick, and one
/// a tick after is dropped.
#[test]
fn answers_at_the_ends_of_guards() {
    let mut counts = Counts::default();
    for (mut monitor, action, date) in edge_calls(false) {
        let Some((guard, reading)) = deciding(&monitor, action, date) else {
            continue;
        };
        let now = standing(&monitor, date).date;
        let answer = monitor.offer(action, date);
        if answer == refused(Refusal::S3) {
            continue;
        }
        let (later, at_once) = (scheduled(1, now + 1), scheduled(1, now));
        let answers = [later, at_once, at_once, Answer::Dropped];
        let at = ends(&guard, reading);
        let mut expected = answers.iter().zip(at).filter(|(_, at)| *at);
        assert!(expected.all(|(expected, _)| answer == *expected));
        add(&mut counts, &guard, at);
    }
    let least = [
        [100, 500, 0, 0],
        [60, 150, 150, 80],
        [0, 200, 90, 100],
        [100, 80, 60, 40],
    ];
    require_counts(&counts, &least);
}

/// The lamp is dark while a reading is at a high, and lit a tick later.
#[test]
fn lamps_at_the_ends_of_guards() {
    let mut counts = [0; CASES];
    for (mut monitor, _, date) in edge_calls(true) {
        let before = readings(&monitor, None, monitor.date());
        let after = readings(&monitor, None, date);
        let dark = !monitor.lamp();
        monitor.collect(date);
        let turned = dark && monitor.lamp();
        for ((guard, before), (_, after)) in before.into_iter().zip(after) {
            let passed = ends(&guard, before)[2] && ends(&guard, after)[3];
            counts[case(&guard)] += u32::from(turned && passed);
        }
    }
    let mut pairs = counts.iter().zip([0, 30, 15, 25]);
    assert!(pairs.all(|(found, least)| *found >= least), "{counts:?}");
}
