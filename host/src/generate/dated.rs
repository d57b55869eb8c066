//! Long lists whose dates all show: each is played whole before the next.

use super::calls::Script;
use super::draft::{draw, Draft, Goal, Profile};
use super::kinds::{lengthens, one_exit, plan, profile, ALL, SLOW, SMALL};
use crate::limits::MAX_PENDING;
use crate::monitor::Answer;
use crate::random::Random;

/// The fewest actions of a list.
const LONG: usize = 10;
/// The most.
const LONGEST: usize = MAX_PENDING + 1;

/// Lists of 10 to 17 actions with two clocks: those of the first random
/// automaton that schedules each.
pub fn dated_lists(random: &mut Random) -> Vec<u8> {
    let first = (0..).find_map(|_| lists_of_one(random));
    first.expect("some automaton schedules each")
}

/// Lists of one random automaton; `None` if one is not scheduled.
fn lists_of_one(random: &mut Random) -> Option<Vec<u8>> {
    let draft = way_out(random);
    let mut script = Script::new(&draft.bytes());
    let mut lists = 0..random.between(1, 3);
    let scheduled = lists.all(|_| one_list(random, &mut script));
    scheduled.then(|| script.finish())
}

/// Holds a list, offers the last action and plays what is scheduled; tells
/// whether that was a long list.
fn one_list(random: &mut Random, script: &mut Script) -> bool {
    // The longest comes most often.
    let length = LONGEST.min(LONG + random.below(12));
    let hold = plan(random).collecting(0).straying(0).pacing(SLOW);
    let hold = hold.steering(100, lengthens).times(length as u32 - 1);
    script.follow(random, hold);
    let exit = script.monitor().automaton().actions - 1;
    let answer = script.offer(exit, script.monitor().date());
    script.play_all(random);
    matches!(answer, Answer::Scheduled { count, .. } if count >= LONG)
}

/// An automaton that starts in its one accepting location, to which only the
/// last action leads. At times that leads elsewhere too.
fn way_out(random: &mut Random) -> Draft {
    let profile = Profile {
        locations: random.pick(&[(4, 6), (8, 16)]),
        actions: (3, 4),
        bounds: random.pick(&[SMALL, ALL]),
        splits: random.between(1, 3),
        density: 100,
        forward: random.between(10, 60),
        resets: random.between(10, 50),
        gaps: random.between(40, 90),
        goal: Goal::Last,
        ..profile(random, 2)
    };
    let mut draft = draw(random, &profile);
    one_exit(random, &mut draft);
    let last = draft.locations - 1;
    draft.initial = last;
    let elsewhere = random.pick(&[0, 30, 60]);
    for rule in draft.outgoing.iter_mut().flatten() {
        if rule[1] == last && random.chance(elsewhere) {
            rule[1] = random.byte(0, last - 1);
        }
    }
    draft
}
