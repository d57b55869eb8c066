//! Decides what becomes of a list of actions: the first correction, whether
//! the list is extensible, and the lamp's rule.

use crate::runs::Reached;
use crate::sets::{ConfigurationSet, CAP};
use crate::sheet::Automaton;

/// What becomes of the pending list with the offered action at its end.
#[derive(Clone, Debug, PartialEq, Eq)]
pub enum Decision {
    /// The correction with the least last date, first in order among those.
    Correct(Vec<u32>),
    /// No correction, but the list is extensible.
    Hold,
    /// Neither.
    Drop,
}

/// Decides a list of actions at date `t`, after the run that led to `reached`.
pub fn decide(automaton: &Automaton, reached: Reached, actions: &[u8], t: u32) -> Decision {
    let start = first_permitted(reached, t);
    let after = after_actions(automaton, &start, actions);
    if after.accepts(automaton) {
        let timing = first_timing(automaton, start, actions);
        return Decision::Correct(timing.expect("some timing ends in an accepting location"));
    }
    if reaches_accepting(automaton, after) {
        Decision::Hold
    } else {
        Decision::Drop
    }
}

/// Whether the pending list, or at least one action if none is pending, can
/// still be continued from date `t` on so that the whole run satisfies.
pub fn can_continue(automaton: &Automaton, reached: Reached, pending: &[u8], t: u32) -> bool {
    let start = first_permitted(reached, t);
    let mut after = after_actions(automaton, &start, pending);
    if pending.is_empty() {
        let mut next = ConfigurationSet::empty();
        after.play_any(automaton, &mut next);
        after = next;
    }
    reaches_accepting(automaton, after)
}

/// Waits until the first date that a timing may use: `t`, or the last
/// scheduled date if that is later.
fn first_permitted(reached: Reached, t: u32) -> Reached {
    let date = t.max(reached.date);
    reached.wait_until(date).expect("dates do not fall")
}

/// The configurations that some timing of the actions, and any wait after it,
/// can lead to.
fn after_actions(automaton: &Automaton, start: &Reached, actions: &[u8]) -> ConfigurationSet {
    let mut set = ConfigurationSet::single(&start.configuration);
    set.wait();
    for action in actions {
        let mut next = ConfigurationSet::empty();
        set.play(automaton, *action, &mut next);
        next.wait();
        set = next;
    }
    set
}

/// Explores forward, by ticks and by any actions, until an accepting location
/// is met or nothing new appears.
fn reaches_accepting(automaton: &Automaton, mut known: ConfigurationSet) -> bool {
    known.wait();
    loop {
        if known.accepts(automaton) {
            return true;
        }
        let mut more = known.clone();
        known.play_any(automaton, &mut more);
        more.wait();
        if more == known {
            return false;
        }
        known = more;
    }
}

/// The timing with the least last date and, among those, the first in order.
fn first_timing(automaton: &Automaton, start: Reached, actions: &[u8]) -> Option<Vec<u32>> {
    // After this many ticks all readings are capped, so that a longer wait
    // before an action gains nothing.
    let longest_wait = CAP as u32;
    let furthest = start.date + longest_wait * actions.len() as u32;
    let last = least_last_date(automaton, &start, actions, furthest)?;
    let mut reached = start;
    let mut timing = Vec::with_capacity(actions.len());
    for index in 0..actions.len() {
        reached = earliest_play(automaton, reached, &actions[index..], last)?;
        timing.push(reached.date);
    }
    Some(timing)
}

/// Plays the first of the actions as early as leaves a completion by `last`.
fn earliest_play(
    automaton: &Automaton,
    reached: Reached,
    actions: &[u8],
    last: u32,
) -> Option<Reached> {
    let (action, rest) = actions.split_first()?;
    (reached.date..=last).find_map(|date| {
        let played = reached.wait_until(date)?.play(automaton, *action)?;
        least_last_date(automaton, &played, rest, last)?;
        Some(played)
    })
}

/// Sweeps the dates upwards to `limit` and gives the first date at which all
/// actions can have been played and an accepting location is reached.
fn least_last_date(
    automaton: &Automaton,
    start: &Reached,
    actions: &[u8],
    limit: u32,
) -> Option<u32> {
    // Entry k holds the configurations at the present date with k actions played.
    let mut played = vec![ConfigurationSet::empty(); actions.len() + 1];
    played[0] = ConfigurationSet::single(&start.configuration);
    for date in start.date..=limit {
        if date > start.date {
            played.iter_mut().for_each(ConfigurationSet::tick);
        }
        for (index, action) in actions.iter().enumerate() {
            let (before, after) = played.split_at_mut(index + 1);
            before[index].play(automaton, *action, &mut after[0]);
        }
        if played[actions.len()].accepts(automaton) {
            return Some(date);
        }
    }
    None
}
