//! The sheets for which a search over actions left, location and two readings
//! meets the most states or looks at each most often, and the offers that cost
//! most.

use super::script::Script;
use super::Input;
use crate::generate::Draft;
use crate::limits::{MAX_BOUND, MAX_PENDING};
use crate::random::Random;
use crate::sheet::{RULE, UNBOUNDED};

/// The action of which the pending list consists.
pub const HELD: u8 = 0;
/// The only action that leads to the accepting location.
pub const EXIT: u8 = 1;
/// An action that no transition has.
pub const UNKNOWN: u8 = 15;

/// The accepting location, which is also the initial one.
const GOAL: u8 = 15;
/// No bounds at all.
const ANY: [u8; 2] = [0, UNBOUNDED];
/// Readings below the last two bounds, at each of them, and from the last on.
const EARLY: [u8; 2] = [0, MAX_BOUND - 2];
const NEXT_TO_LAST: [u8; 2] = [MAX_BOUND - 1, MAX_BOUND - 1];
const LAST: [u8; 2] = [MAX_BOUND, MAX_BOUND];
const FROM_LAST: [u8; 2] = [MAX_BOUND, UNBOUNDED];
/// All readings below the last bound.
const BELOW_LAST: [u8; 2] = [0, MAX_BOUND - 1];
/// The readings up to the middle of the bounds, and the others.
const LOW: [u8; 2] = [0, MAX_BOUND / 2];
const HIGH: [u8; 2] = [MAX_BOUND / 2 + 1, UNBOUNDED];
/// The same in three parts.
const THIRDS: [[u8; 2]; 3] = {
    let third = MAX_BOUND / 3;
    [
        [0, third - 1],
        [third, 2 * third - 1],
        [2 * third, UNBOUNDED],
    ]
};

/// Resets of a transition.
const NONE: u8 = 0;
const FIRST: u8 = 1;
const SECOND: u8 = 2;
const BOTH: u8 = 3;

fn rule(action: u8, target: u8, resets: u8, x: [u8; 2], y: [u8; 2]) -> [u8; RULE] {
    [action, target, resets, x[0], x[1], y[0], y[1]]
}

fn draft(outgoing: Vec<Vec<[u8; RULE]>>) -> Draft {
    Draft {
        locations: 16,
        clocks: 2,
        actions: 16,
        initial: GOAL,
        accepting: 1 << GOAL,
        outgoing,
    }
}

/// A sheet with as many states as possible: in every location and for all
/// readings the held action leads on, two steps lead from any location to any
/// other but the goal, and every difference of the readings arises. The goal
/// is entered from one location and at one pair of readings.
pub fn many_states() -> Vec<u8> {
    let mut outgoing: Vec<_> = (0..GOAL).map(spreading).collect();
    outgoing[14].push(rule(EXIT, GOAL, NONE, LAST, [0, 0]));
    outgoing.push(vec![
        rule(HELD, 1, FIRST, ANY, THIRDS[0]),
        rule(HELD, 6, FIRST, ANY, THIRDS[1]),
        rule(HELD, 11, FIRST, ANY, THIRDS[2]),
    ]);
    draft(outgoing).bytes()
}

/// Four transitions that cover all readings. They lead to low and to high
/// readings of either clock, the other at 0; each location is the target of
/// one of each sort, so that all pairs of readings follow by waiting.
fn spreading(location: u8) -> Vec<[u8; RULE]> {
    let target = |sort: u8| (4 * location + sort) % GOAL;
    vec![
        rule(HELD, target(0), FIRST, HIGH, LOW),
        rule(HELD, target(1), FIRST, LOW, HIGH),
        rule(HELD, target(2), SECOND, HIGH, HIGH),
        rule(HELD, target(3), SECOND, LOW, LOW),
    ]
}

/// A sheet with a late correction: the way to the goal leads through all
/// locations, each step waits for a reading one below the largest bound, and
/// nothing else leads forward.
pub fn late_correction() -> Vec<u8> {
    let mut outgoing: Vec<_> = (0..GOAL).map(climbing).collect();
    outgoing[14].push(rule(EXIT, GOAL, NONE, ANY, NEXT_TO_LAST));
    outgoing.push(THIRDS.map(|third| rule(HELD, 0, BOTH, third, ANY)).to_vec());
    draft(outgoing).bytes()
}

/// One transition forward at that reading of one clock, three others for the
/// rest. The clocks change places from location to location.
fn climbing(location: u8) -> Vec<[u8; RULE]> {
    let next = (location + 1).min(GOAL - 1);
    let back = location.saturating_sub(1);
    let cut = 1 + location % 5;
    // Target, resets, and the bounds of the other clock and of the one asked for.
    let sorts = [
        (location, FIRST, [cut + 1, UNBOUNDED], EARLY),
        (back, SECOND, [0, cut], EARLY),
        (location, SECOND, ANY, FROM_LAST),
        (next, FIRST, ANY, NEXT_TO_LAST),
    ];
    let turned = |(target, resets, other, asked): (u8, u8, [u8; 2], [u8; 2])| {
        if location.is_multiple_of(2) {
            rule(HELD, target, resets, other, asked)
        } else {
            rule(HELD, target, BOTH - resets, asked, other)
        }
    };
    sorts.map(turned).to_vec()
}

/// How many locations are dead: nothing leads from them to the goal.
const DEAD: u8 = 10;
/// The location by which the goal is reached.
const LIVE: u8 = 14;
/// The seed whose sheet costs most, of 12,000.
const WORST_SEED: u64 = 5811;

/// The sheet of the worst plan found. All that the dead locations cost is
/// worked out, and as there is no way out of them, nothing cuts that short. The
/// goal is reached past them, after a wait up to the largest bound.
pub fn dead_locations() -> Vec<u8> {
    let mut random = Random::new(WORST_SEED);
    let targets = [(); 6].map(|()| permutation(&mut random));
    let dead = |location: usize| among_dead(targets.each_ref().map(|to| to[location]));
    let mut outgoing: Vec<_> = (0..DEAD.into()).map(dead).collect();
    outgoing.resize(LIVE.into(), Vec::new());
    outgoing.push(vec![
        rule(HELD, LIVE, NONE, ANY, ANY),
        rule(EXIT, GOAL, NONE, ANY, ANY),
    ]);
    outgoing.push(vec![
        rule(HELD, 0, FIRST, BELOW_LAST, ANY),
        rule(HELD, LIVE, NONE, FROM_LAST, ANY),
    ]);
    draft(outgoing).bytes()
}

/// The dead locations in a random order.
fn permutation(random: &mut Random) -> Vec<u8> {
    let mut locations: Vec<u8> = (0..DEAD).collect();
    random.shuffle(&mut locations);
    locations
}

/// Right after a reset, and a tick later, the transitions reset nothing and
/// lead to two locations, so that soon all are reached without a reset. Later
/// each wait leads to another configuration, by a reset of one clock.
fn among_dead(to: [u8; 6]) -> Vec<[u8; RULE]> {
    let later = [2, UNBOUNDED];
    vec![
        rule(HELD, to[0], NONE, [0, 0], ANY),
        rule(HELD, to[1], NONE, [1, 1], ANY),
        rule(HELD, to[2], NONE, later, [0, 0]),
        rule(HELD, to[3], NONE, later, [1, 1]),
        rule(HELD, to[4], FIRST, later, [2, MAX_BOUND - 1]),
        rule(HELD, to[5], SECOND, later, FROM_LAST),
    ]
}

/// The sheet of the worst waits found. At each tick before the way to the goal
/// goes on, the held action could be played at once, without a reset, into
/// dead locations: what that would cost is looked for along a chain, through
/// all of them at each later action.
pub fn dead_beside() -> Vec<u8> {
    let mut outgoing: Vec<_> = (0..LIVE).map(spread_late).collect();
    outgoing.push(vec![
        rule(HELD, 0, NONE, BELOW_LAST, ANY),
        rule(HELD, LIVE, BOTH, FROM_LAST, ANY),
        rule(EXIT, GOAL, NONE, ANY, ANY),
    ]);
    outgoing.push(vec![rule(HELD, LIVE, BOTH, ANY, ANY)]);
    draft(outgoing).bytes()
}

/// Each wait leads to another configuration, by a reset; after the longest two
/// there is none, so that all dead locations are reached without one.
fn spread_late(location: u8) -> Vec<[u8; RULE]> {
    let next = (location + 1) % LIVE;
    vec![
        rule(HELD, next, FIRST, ANY, EARLY),
        rule(HELD, next, NONE, ANY, NEXT_TO_LAST),
        rule(HELD, (location + 4) % LIVE, NONE, ANY, FROM_LAST),
    ]
}

/// Fills the pending list from the last scheduled date on; gives the date.
pub fn fill(script: &mut Script) -> u32 {
    let date = script.monitor().reached().date;
    for _ in 0..MAX_PENDING {
        script.offer(HELD, date);
    }
    date
}

/// Full pending lists that are scheduled, with the collections of the batch
/// before.
fn batches(sheet: &[u8], calls: usize) -> Vec<Input> {
    let mut script = Script::new(sheet);
    for _ in 0..calls.div_ceil(2 * (MAX_PENDING + 1)) {
        let date = fill(&mut script);
        for _ in 0..=MAX_PENDING {
            script.collect(date);
        }
        script.offer(EXIT, date);
    }
    vec![script.finish()]
}

/// Batches of the sheet with the most states.
pub fn batches_many(calls: usize) -> Vec<Input> {
    batches(&many_states(), calls)
}

/// Batches with a late correction.
pub fn batches_late(calls: usize) -> Vec<Input> {
    batches(&late_correction(), calls)
}

/// A 17th action for which nothing is left but to be held.
pub fn held_too_many(calls: usize) -> Vec<Input> {
    let mut script = Script::new(&many_states());
    let date = fill(&mut script);
    vec![script.repeating(HELD, date, calls)]
}

/// A 17th action that is dropped.
pub fn dropped(calls: usize) -> Vec<Input> {
    let mut script = Script::new(&many_states());
    let date = fill(&mut script);
    vec![script.repeating(UNKNOWN, date, calls)]
}

/// A correction of 17 actions for which the schedule has no room.
fn no_room(sheet: &[u8], calls: usize) -> Vec<Input> {
    let mut script = Script::new(sheet);
    let date = fill(&mut script);
    script.offer(EXIT, date);
    let date = fill(&mut script);
    vec![script.repeating(EXIT, date, calls)]
}

/// No room, on the sheet with the most states.
pub fn no_room_many(calls: usize) -> Vec<Input> {
    no_room(&many_states(), calls)
}

/// No room for a late correction.
pub fn no_room_late(calls: usize) -> Vec<Input> {
    no_room(&late_correction(), calls)
}

/// A correction of 17 actions that is scheduled, once a run: the next offer
/// would have another box.
fn planned(sheet: &[u8]) -> Vec<Input> {
    let mut script = Script::new(sheet);
    let date = fill(&mut script);
    vec![script.repeating(EXIT, date, 1)]
}

/// A plan on the sheet with the most states.
pub fn planned_many(_calls: usize) -> Vec<Input> {
    planned(&many_states())
}

/// A plan with a late correction.
pub fn planned_late(_calls: usize) -> Vec<Input> {
    planned(&late_correction())
}

/// The worst plan found.
pub fn planned_worst(_calls: usize) -> Vec<Input> {
    planned(&dead_locations())
}

/// The plan with the worst waits found.
pub fn planned_waits(_calls: usize) -> Vec<Input> {
    planned(&dead_beside())
}
