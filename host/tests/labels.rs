//! A second way to the first correction, for long lists: a sweep over the
//! dates that keeps, for each configuration, the first timing in order that
//! leads there. It is compared with the monitor on generated inputs.

mod common;

use common::COLLECT;
use host::generate::kind_named;
use host::limits::MAX_BOUND;
use host::monitor::{Answer, Monitor};
use host::sheet::{self, Automaton};
use std::collections::BTreeMap;

/// The least reading above every bound.
const CAP: u32 = MAX_BOUND as u32 + 1;

/// Location and readings, capped.
type State = (u8, u32, u32);
/// The first timing in order that leads to each state.
type Labels = BTreeMap<State, Vec<u32>>;

/// Keeps the timing that is first in order.
fn keep(labels: &mut Labels, state: State, timing: Vec<u32>) {
    match labels.get_mut(&state) {
        Some(old) if *old <= timing => {}
        Some(old) => *old = timing,
        None => {
            labels.insert(state, timing);
        }
    }
}

fn tick(labels: Labels) -> Labels {
    let mut next = Labels::new();
    for ((location, x, y), timing) in labels {
        keep(
            &mut next,
            (location, (x + 1).min(CAP), (y + 1).min(CAP)),
            timing,
        );
    }
    next
}

fn play(automaton: &Automaton, state: State, action: u8) -> Option<State> {
    let (location, x, y) = state;
    let rules = automaton.outgoing[usize::from(location)].iter();
    let rule = rules
        .filter(|rule| rule.action == action)
        .find(|rule| rule.guards[0].contains(x) && rule.guards[1].contains(y))?;
    let kept = |reset: bool, reading: u32| if reset { 0 } else { reading };
    Some((
        rule.target,
        kept(rule.resets[0], x),
        kept(rule.resets[1], y),
    ))
}

/// The first correction of the pending actions and one more.
fn correction(monitor: &Monitor, action: u8, t: u32) -> Option<Vec<u32>> {
    let automaton = monitor.automaton();
    let mut list = monitor.pending_actions();
    list.push(action);
    let reached = monitor.reached();
    let start = t.max(reached.date);
    let [x, y] = reached
        .configuration
        .valuation
        .map(|reading| (reading + (start - reached.date)).min(CAP));
    let mut layers = vec![Labels::new(); list.len() + 1];
    layers[0].insert((reached.configuration.location, x, y), Vec::new());
    for date in start..=start + CAP * list.len() as u32 {
        for (index, action) in list.iter().enumerate() {
            for (state, timing) in layers[index].clone() {
                if let Some(next) = play(automaton, state, *action) {
                    let longer = [timing.as_slice(), &[date]].concat();
                    keep(&mut layers[index + 1], next, longer);
                }
            }
        }
        let ends = layers[list.len()].iter();
        let accepted = ends.filter(|(state, _)| automaton.is_accepting(state.0));
        if let Some(first) = accepted.map(|(_, timing)| timing).min() {
            return Some(first.clone());
        }
        layers = layers.into_iter().map(tick).collect();
    }
    None
}

/// Checks every offer of an input; gives how many corrections were found and
/// the longest of them.
fn check(input: &[u8]) -> (u32, usize) {
    let length = usize::from(u16::from_le_bytes([input[0], input[1]]));
    let automaton = sheet::read(&input[2..2 + length]).expect("the sheet loads");
    let mut monitor = Monitor::new(automaton, 0);
    let (mut found, mut longest) = (0, 0);
    for call in input[2 + length..].chunks_exact(5) {
        let date = u32::from_le_bytes([call[1], call[2], call[3], call[4]]);
        if call[0] == COLLECT {
            monitor.collect(date);
            continue;
        }
        let before = monitor.clone();
        let Answer::Scheduled { count, last } = monitor.offer(call[0], date) else {
            continue;
        };
        let expected = correction(&before, call[0], date).expect("a correction exists");
        let new = &monitor.history()[before.history().len()..];
        let timing: Vec<u32> = new.iter().map(|timed| timed.date).collect();
        assert_eq!(timing, expected);
        assert_eq!((count, Some(&last)), (timing.len(), timing.last()));
        found += 1;
        longest = longest.max(count);
    }
    (found, longest)
}

/// Checks so many inputs of a kind.
fn check_kind(name: &str, seeds: u64) -> (u32, usize) {
    let kind = kind_named(name).expect("the kind exists");
    let results = (0..seeds).map(|seed| check(&kind.input(seed)));
    results.fold((0, 0), |sum, one| (sum.0 + one.0, sum.1.max(one.1)))
}

#[test]
fn long_lists() {
    let (found, longest) = check_kind("long_pending", 300);
    assert!(found >= 300, "{found}");
    assert_eq!(longest, 17);
}

#[test]
fn long_lists_two_clocks() {
    let (found, longest) = check_kind("long_two_clocks", 200);
    assert!(found >= 200, "{found}");
    assert_eq!(longest, 17);
}

#[test]
fn dated_lists() {
    let (found, longest) = check_kind("dated_lists", 60);
    assert!(found >= 100, "{found}");
    assert_eq!(longest, 17);
}

#[test]
fn two_clocks() {
    let (found, longest) = check_kind("two_clocks", 300);
    assert!(found >= 300 && longest >= 4, "{found} {longest}");
}

#[test]
fn full_sheets() {
    let (found, longest) = check_kind("full_sheet", 200);
    assert!(found >= 200 && longest >= 4, "{found} {longest}");
}

#[test]
fn deadlines() {
    let (found, longest) = check_kind("deadlines", 300);
    assert!(found >= 100 && longest >= 4, "{found} {longest}");
}
