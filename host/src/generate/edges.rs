//! Guards of every shape, and calls while a reading is at an end of one or a
//! tick off.

use super::calls::{Pace, Plan, Script};
use super::draft::{draw, Draft, Goal, Profile, EARLIER_MOST};
use super::kinds::{not_dropped, plan, profile};
use crate::limits::MAX_BOUND;
use crate::monitor::Monitor;
use crate::random::Random;
use crate::sheet::{Interval, Transition, RULE, UNBOUNDED};

/// A low and a high, as they stand in the bytes.
type Shape = [u8; 2];

/// Dates of calls at no edge, at times far above all bounds.
const FAR: Pace = Pace {
    still: 60,
    jumps: 40,
    step: 1,
    jump: 500,
};

/// Calls at the ends of guards, until the lamp is lit and at times longer.
pub fn bound_edges(random: &mut Random) -> Vec<u8> {
    let mut script = dark_script(random);
    let plan = plan(random).steering(80, not_dropped).pacing(FAR);
    for _ in 0..random.between(50, 90) {
        edge_call(random, &mut script, &plan);
        if script.monitor().lamp() && random.chance(40) {
            break;
        }
    }
    script.drain(random);
    script.finish()
}

/// A script with the first random automaton whose lamp is dark.
fn dark_script(random: &mut Random) -> Script {
    let mut scripts = (0..).map(|_| Script::new(&shaped(random).bytes()));
    let dark = scripts.find(|script| !script.monitor().lamp());
    dark.expect("some automaton accepts")
}

/// A small automaton with guards of random shapes. At times its last action may
/// come at any reading and resets all clocks.
fn shaped(random: &mut Random) -> Draft {
    let clocks = random.byte(1, 2);
    // At most 16 transitions without bounds, one for a location and action.
    let profile = Profile {
        locations: (1, 4),
        actions: (2, 4),
        splits: 0,
        gaps: 0,
        density: random.between(70, 100),
        resets: random.pick(&[0, 40, 60, 80]),
        goal: random.pick(&[Goal::Last, Goal::Percent(40), Goal::Percent(80)]),
        ..profile(random, clocks)
    };
    let mut draft = draw(random, &profile);
    let targets = draft.locations;
    let again = random.chance(40).then_some(draft.actions - 1);
    for rules in &mut draft.outgoing {
        let whole = std::mem::take(rules).into_iter();
        rules.extend(whole.flat_map(|rule| match again {
            Some(action) if rule[0] == action => vec![resetting(rule, clocks)],
            _ => bounded(random, rule, clocks, targets),
        }));
        random.shuffle(rules);
    }
    draft
}

/// A transition that resets all clocks.
fn resetting(mut rule: [u8; RULE], clocks: u8) -> [u8; RULE] {
    rule[2] = 2 * clocks - 1;
    rule
}

/// A transition with bounds of one clock or of both, and at times such that
/// apply right beside it and lead anywhere: at most three.
fn bounded(random: &mut Random, rule: [u8; RULE], clocks: u8, targets: u8) -> Vec<[u8; RULE]> {
    let clock = random.byte(1, clocks);
    let own = shape(random);
    let mut rule = guarded(rule, clock, own);
    if clocks == 2 && random.chance(40) {
        rule = guarded(rule, 3 - clock, shape(random));
    }
    let mut rules = vec![rule];
    for shape in beside(random, own) {
        let mut other = guarded(rule, clock, shape);
        other[1] = random.byte(0, targets - 1);
        rules.push(other);
    }
    rules
}

/// A transition with a guard for clock 1 or 2.
fn guarded(mut rule: [u8; RULE], clock: u8, [low, high]: Shape) -> [u8; RULE] {
    let at = 1 + 2 * usize::from(clock);
    (rule[at], rule[at + 1]) = (low, high);
    rule
}

/// At least, exactly, at most or between.
fn shape(random: &mut Random) -> Shape {
    let (one, other) = (bound(random), bound(random));
    match random.below(4) {
        0 => [one, UNBOUNDED],
        1 => [one, one],
        2 => [0, one.max(1)],
        _ => {
            let low = one.clamp(1, MAX_BOUND - 1);
            [low, other.clamp(low + 1, MAX_BOUND)]
        }
    }
}

/// A bound, often one of the least or the largest, or next to the one that was
/// the largest.
fn bound(random: &mut Random) -> u8 {
    let any = random.byte(0, MAX_BOUND);
    let earlier = random.byte(EARLIER_MOST, EARLIER_MOST + 1);
    random.pick(&[0, 1, earlier, MAX_BOUND - 1, MAX_BOUND, any, any, any])
}

/// At times, a shape that ends right below another, or one that starts right
/// above it.
fn beside(random: &mut Random, [low, high]: Shape) -> Vec<Shape> {
    let mut shapes = Vec::new();
    if low > 0 && random.chance(25) {
        shapes.push([random.pick(&[0, low - 1]), low - 1]);
    }
    if high < MAX_BOUND && random.chance(25) {
        let start = high + 1;
        shapes.push([start, random.pick(&[start, MAX_BOUND, UNBOUNDED])]);
    }
    shapes
}

/// An offer or two collections, mostly at an edge of a guard.
fn edge_call(random: &mut Random, script: &mut Script, plan: &Plan) {
    let aim = aim(random, script.monitor());
    let any = script.next_date(random, &plan.pace);
    let date = aim.map_or(any, |(_, date)| date);
    if random.chance(plan.collections) {
        script.collect(date);
        // A tick may light the lamp.
        script.collect(date + random.pick(&[0, 1, 1, 1]));
        return;
    }
    let action = match aim {
        Some((action, _)) if random.chance(70) => action,
        _ => script.choose(random, plan, date),
    };
    script.offer(action, date);
}

/// The earliest of three random edges of transitions that may come next: the
/// action, and the date. `None` if all have passed, and at times.
fn aim(random: &mut Random, monitor: &Monitor) -> Option<(u8, u32)> {
    let next = some_next(random, monitor).into_iter();
    let edges: Vec<(u8, u32)> = next.flat_map(|it| edge_dates(monitor, it)).collect();
    if edges.is_empty() || random.chance(4) {
        return None;
    }
    let some = [0; 3].map(|_| random.pick(&edges));
    some.into_iter().min_by_key(|(_, date)| *date)
}

/// The transitions of the location reached. If actions are held, those for the
/// oldest, or those of any location.
fn some_next<'a>(random: &mut Random, monitor: &'a Monitor) -> Vec<&'a Transition> {
    let outgoing = &monitor.automaton().outgoing;
    let here = &outgoing[usize::from(monitor.reached().configuration.location)];
    match monitor.pending().first() {
        None => here.iter().collect(),
        Some(held) if random.chance(50) => {
            here.iter().filter(|it| it.action == held.action).collect()
        }
        Some(_) => outgoing[random.below(outgoing.len())].iter().collect(),
    }
}

/// The dates, from the monitor's on, at which a clock reads an edge of its guard,
/// each with the action.
fn edge_dates(monitor: &Monitor, transition: &Transition) -> Vec<(u8, u32)> {
    let reached = monitor.reached();
    let guarded = transition
        .guards
        .iter()
        .zip(reached.configuration.valuation);
    let ticks = guarded.flat_map(|(guard, reading)| {
        let ticks = move |edge: u32| edge.checked_sub(reading);
        edge_readings(guard).filter_map(ticks)
    });
    let dates = ticks.map(|ticks| reached.date + ticks);
    let ahead = dates.filter(|date| *date >= monitor.date());
    ahead.map(|date| (transition.action, date)).collect()
}

/// The readings at the ends of a guard, and those a tick outside.
fn edge_readings(guard: &Interval) -> impl Iterator<Item = u32> {
    let low = u32::from(guard.low);
    let high = guard.high.map(u32::from);
    let below = low.checked_sub(1);
    let above = high.map(|high| high + 1);
    [below, Some(low), high, above].into_iter().flatten()
}
