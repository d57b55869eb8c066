//! Kinds with so many calls that the desk program reads several blocks.

use super::calls::Script;
use super::draft::{draw, Draft, Goal, Profile};
use super::kinds::{not_dropped, plan, profile, push_tail, scripted};
use super::kinds::{ALL, MIDDLE, SMALL, STEADY};
use crate::random::Random;
use crate::sheet::{RULE, UNBOUNDED};

/// Calls that the desk program reads at a time.
pub const BLOCK: usize = 100;

/// Five blocks and more, in one of a hundred cases far more.
pub fn many_calls(random: &mut Random) -> Vec<u8> {
    if random.chance(1) {
        return beyond_16_bits(random);
    }
    let more = 1 + random.below(BLOCK);
    lively(random, 5 * BLOCK + more)
}

/// More calls than a 16-bit number counts. Few collections keep the schedule
/// filled, so that each block needs the box of the one before. No offer is
/// steered, as that copies all that was ever scheduled.
fn beyond_16_bits(random: &mut Random) -> Vec<u8> {
    let draft = way_home(random);
    let calls = random.between(66_000, 69_900);
    let collections = random.between(15, 25);
    let plan = plan(random).collecting(collections).pacing(STEADY);
    scripted(random, &draft, plan.steering(0, not_dropped).times(calls))
}

/// Whole blocks, at times a call less or more, at times a tail.
pub fn whole_blocks(random: &mut Random) -> Vec<u8> {
    let calls = BLOCK * random.pick(&[1, 1, 2, 3]);
    let calls = random.pick(&[calls, calls, calls - 1, calls + 1]);
    let mut input = lively(random, calls);
    if random.chance(30) {
        push_tail(random, &mut input);
    }
    input
}

/// So many calls, with held and scheduled actions all along.
fn lively(random: &mut Random, calls: usize) -> Vec<u8> {
    let draft = way_home(random);
    let mut script = Script::new(&draft.bytes());
    let collections = random.between(45, 60);
    let plan = plan(random).collecting(collections).pacing(STEADY);
    let plan = plan.steering(70, not_dropped).times(calls as u32);
    script.follow(random, plan);
    script.finish()
}

/// An automaton whose last action leads from everywhere to an accepting
/// location, however late, so that the lamp is dark unless held actions expire.
fn way_home(random: &mut Random) -> Draft {
    let clocks = random.byte(1, 2);
    let profile = Profile {
        locations: (2, 8),
        actions: (2, 4),
        bounds: random.pick(&[SMALL, MIDDLE, ALL]),
        splits: 1,
        gaps: random.between(0, 20),
        goal: random.pick(&[Goal::Last, Goal::Percent(0), Goal::Percent(30)]),
        ..profile(random, clocks)
    };
    let mut draft = draw(random, &profile);
    let exit = draft.actions - 1;
    let home = draft.accepting.trailing_zeros() as u8;
    for rules in &mut draft.outgoing {
        rules.retain(|rule| rule[0] != exit);
        rules.push(late_rule(random, exit, home, clocks));
    }
    draft
}

/// A transition without upper bounds.
fn late_rule(random: &mut Random, action: u8, target: u8, clocks: u8) -> [u8; RULE] {
    let resets = random.byte(0, 2 * clocks - 1);
    let low_1 = random.byte(0, 8);
    let low_2 = if clocks == 2 { random.byte(0, 8) } else { 0 };
    [action, target, resets, low_1, UNBOUNDED, low_2, UNBOUNDED]
}
