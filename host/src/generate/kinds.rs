//! The named kinds of desk inputs.

use super::blocks::{many_calls, whole_blocks};
use super::calls::{push_call, push_random_calls, Pace, Plan, Script};
use super::damage::{at_an_edge, damaged};
use super::dated::dated_lists;
use super::draft::{draw, Bounds, Draft, Goal, Profile, EARLIER_MOST};
use super::edges::bound_edges;
use super::used_up::{used_up, used_up_lit, used_up_played};
use super::with_length;
use crate::course::{A, B, C, D, E};
use crate::limits::{LAST_DATE, MAX_BOUND, MAX_PENDING};
use crate::monitor::Answer;
use crate::random::Random;
use crate::refusal::Refusal;
use crate::sets::CAP;
use crate::sheet::UNBOUNDED;
use crate::used_up::{of_a_last_list, of_a_lit_box, of_all_fates};

/// A kind of desk inputs.
pub struct Kind {
    pub name: &'static str,
    pub(super) make: fn(&mut Random) -> Vec<u8>,
    /// Where every seed gives the same input, what tells whether its lines show
    /// what it is there for.
    pub look: Option<Look>,
}

/// Looks at an input and its lines; tells what is missing.
pub type Look = fn(&[u8], &str) -> Result<(), String>;

/// All kinds of random inputs.
pub const KINDS: &[Kind] = &[
    kind("one_clock", one_clock),
    kind("two_clocks", two_clocks),
    kind("deadlines", deadlines),
    kind("bound_edges", bound_edges),
    kind("long_pending", long_pending),
    kind("long_two_clocks", long_two_clocks),
    kind("dated_lists", dated_lists),
    kind("full_schedule", full_schedule),
    kind("full_sheet", full_sheet),
    kind("late", late),
    kind("course", course),
    kind("bad_sheet", bad_sheet),
    kind("edge_sheet", edge_sheet),
    kind("bad_calls", bad_calls),
    kind("tails", tails),
    kind("many_calls", many_calls),
    kind("whole_blocks", whole_blocks),
    kind("truncated", truncated),
    kind("any_bytes", any_bytes),
];

/// The kinds of which one input is enough. These use up the numbers.
pub const ONCE: &[Kind] = &[
    once("used_up", used_up, of_all_fates),
    once("used_up_played", used_up_played, of_a_last_list),
    once("used_up_lit", used_up_lit, of_a_lit_box),
];

const fn kind(name: &'static str, make: fn(&mut Random) -> Vec<u8>) -> Kind {
    let look = None;
    Kind { name, make, look }
}

const fn once(name: &'static str, make: fn(&mut Random) -> Vec<u8>, look: Look) -> Kind {
    let look = Some(look);
    Kind { name, make, look }
}

/// The kind of a name.
pub fn kind_named(name: &str) -> Option<&'static Kind> {
    let mut kinds = KINDS.iter().chain(ONCE);
    kinds.find(|kind| kind.name == name)
}

pub(super) const SMALL: Bounds = Bounds { low: 1, high: 5 };
pub(super) const MIDDLE: Bounds = Bounds { low: 1, high: 14 };
/// Up to the largest bound before it was raised.
const EARLIER: Bounds = Bounds {
    low: EARLIER_MOST - 5,
    high: EARLIER_MOST,
};
/// The bounds around that one.
const RAISED: Bounds = Bounds {
    low: EARLIER_MOST - 1,
    high: EARLIER_MOST + 2,
};
const LARGE: Bounds = Bounds {
    low: MAX_BOUND - 5,
    high: MAX_BOUND,
};
pub(super) const ALL: Bounds = Bounds {
    low: 0,
    high: MAX_BOUND,
};

/// Ticks after which every reading is above all bounds.
pub(super) const CAPPED: u32 = CAP as u32;

pub(super) const SLOW: Pace = Pace {
    still: 60,
    jumps: 5,
    step: 2,
    jump: CAPPED + 5,
};
pub(super) const STEADY: Pace = Pace {
    still: 35,
    jumps: 15,
    step: 5,
    jump: CAPPED + 10,
};

pub(super) fn not_dropped(answer: &Answer) -> bool {
    *answer != Answer::Dropped
}

pub(super) fn lengthens(answer: &Answer) -> bool {
    matches!(answer, Answer::Held(_) | Answer::Refused(Refusal::S4))
}

fn schedules(answer: &Answer) -> bool {
    matches!(
        answer,
        Answer::Scheduled { .. } | Answer::Refused(Refusal::S2 | Refusal::S3)
    )
}

/// The bounds of a middling automaton. Half are small or middling, so that several
/// actions fit before they end.
fn bounds(random: &mut Random) -> Bounds {
    random.pick(&[
        SMALL, SMALL, SMALL, MIDDLE, MIDDLE, EARLIER, RAISED, LARGE, ALL, ALL,
    ])
}

/// A profile of a middling automaton.
pub fn profile(random: &mut Random, clocks: u8) -> Profile {
    let goals = [
        Goal::Last,
        Goal::Last,
        Goal::Percent(0),
        Goal::Percent(20),
        Goal::Percent(50),
    ];
    let goal = if random.chance(3) {
        Goal::Nowhere
    } else {
        random.pick(&goals)
    };
    Profile {
        locations: (1, random.pick(&[2, 4, 8, 16])),
        clocks,
        actions: (1, random.pick(&[2, 3, 6, 16])),
        bounds: bounds(random),
        splits: random.between(0, 3),
        density: random.between(20, 90),
        forward: random.between(30, 90),
        resets: random.between(5, 60),
        gaps: random.between(10, 60),
        goal,
    }
}

/// A plan of middling calls.
pub(super) fn plan(random: &mut Random) -> Plan {
    Plan {
        calls: random.between(5, 40),
        collections: random.between(10, 40),
        stray: 3,
        steered: random.between(40, 90),
        wanted: not_dropped,
        pace: random.pick(&[SLOW, STEADY]),
    }
}

/// A script with a draft's sheet and calls by a plan.
pub(super) fn scripted(random: &mut Random, draft: &Draft, plan: Plan) -> Vec<u8> {
    let mut script = Script::new(&draft.bytes());
    script.follow(random, plan);
    script.drain(random);
    script.finish()
}

fn one_clock(random: &mut Random) -> Vec<u8> {
    let profile = profile(random, 1);
    let draft = draw(random, &profile);
    let plan = plan(random);
    scripted(random, &draft, plan)
}

fn two_clocks(random: &mut Random) -> Vec<u8> {
    let profile = profile(random, 2);
    let draft = draw(random, &profile);
    let plan = plan(random);
    scripted(random, &draft, plan)
}

/// Chains with upper bounds and few resets, so that pending actions expire.
fn deadlines(random: &mut Random) -> Vec<u8> {
    let clocks = random.byte(1, 2);
    let profile = Profile {
        locations: (3, 8),
        actions: (1, 4),
        bounds: random.pick(&[MIDDLE, MIDDLE, RAISED, LARGE, ALL, ALL]),
        splits: random.between(1, 3),
        forward: 85,
        resets: random.between(0, 35),
        gaps: 70,
        goal: random.pick(&[Goal::Last, Goal::Last, Goal::Percent(10)]),
        ..profile(random, clocks)
    };
    let draft = draw(random, &profile);
    let plan = plan(random).collecting(30).pacing(STEADY);
    scripted(random, &draft, plan.steering(85, not_dropped))
}

/// An automaton with loops and chains and one late accepting location.
fn far_goal(random: &mut Random, clocks: u8) -> Draft {
    let profile = Profile {
        locations: random.pick(&[(2, 3), (2, 6), (8, 16)]),
        actions: (2, random.pick(&[3, 4, 8])),
        density: random.between(40, 100),
        splits: random.between(1, 3),
        forward: random.between(10, 60),
        resets: random.between(20, 70),
        gaps: random.between(5, 40),
        goal: Goal::Last,
        ..profile(random, clocks)
    };
    let mut draft = draw(random, &profile);
    draft.initial = 0;
    if random.chance(60) {
        one_exit(random, &mut draft);
    }
    draft
}

/// Lets the last action, and no other, lead to the last location.
pub(super) fn one_exit(random: &mut Random, draft: &mut Draft) {
    let last = draft.locations - 1;
    for rule in draft.outgoing.iter_mut().flatten() {
        if rule[0] == draft.actions - 1 {
            rule[1] = last;
        } else if rule[1] == last {
            rule[1] = random.byte(0, last - 1);
        }
    }
}

/// The pending list grows, often until it is full, and then is scheduled.
fn long_pending(random: &mut Random) -> Vec<u8> {
    let clocks = random.byte(1, 2);
    long_lists(random, clocks, 0)
}

/// The same with two clocks, and with offers at random before it is scheduled,
/// some of which are dropped.
fn long_two_clocks(random: &mut Random) -> Vec<u8> {
    long_lists(random, 2, 6)
}

/// Long lists, with at most so many offers at random in between.
fn long_lists(random: &mut Random, clocks: u8, between: u32) -> Vec<u8> {
    let draft = far_goal(random, clocks);
    let mut script = Script::new(&draft.bytes());
    let general = plan(random).collecting(5).pacing(SLOW);
    let grow = general.steering(95, lengthens);
    for _ in 0..random.between(1, 3) {
        let full = random.pick(&[3, 8, 12, MAX_PENDING, MAX_PENDING]);
        for _ in 0..full + 8 {
            if script.monitor().pending().len() < full {
                script.follow(random, grow.times(1));
            }
        }
        let more = random.between(0, 3);
        script.follow(random, grow.times(more));
        if between > 0 {
            let any = random.between(1, between);
            script.follow(random, general.times(any));
        }
        script.follow(random, general.steering(100, schedules).times(2));
        let rest = random.between(0, 20);
        script.follow(random, general.collecting(80).times(rest));
    }
    script.drain(random);
    script.finish()
}

/// Many accepting locations and few collections; the schedule fills.
fn full_schedule(random: &mut Random) -> Vec<u8> {
    let clocks = random.byte(1, 2);
    let profile = Profile {
        locations: (1, 6),
        density: random.between(50, 100),
        gaps: random.between(0, 30),
        goal: Goal::Percent(random.pick(&[10, 40, 80])),
        ..profile(random, clocks)
    };
    let draft = draw(random, &profile);
    let mut script = Script::new(&draft.bytes());
    let fill = plan(random).collecting(4).pacing(SLOW);
    let fill = fill.steering(95, schedules);
    let either = fill.steering(95, not_dropped).pacing(STEADY);
    script.follow(random, fill.times(40));
    for _ in 0..random.between(1, 3) {
        script.follow(random, either.collecting(40).times(8));
        script.follow(random, fill.times(10));
        script.follow(random, either.collecting(90).times(4));
    }
    script.drain(random);
    script.finish()
}

/// The largest sheets: 16 locations, 16 actions, 64 transitions, 518 bytes.
fn full_sheet(random: &mut Random) -> Vec<u8> {
    let clocks = random.byte(1, 2);
    let profile = Profile {
        locations: (16, 16),
        actions: (16, 16),
        density: 100,
        splits: random.between(0, 2),
        ..profile(random, clocks)
    };
    let draft = draw(random, &profile);
    let plan = plan(random).steering(90, not_dropped);
    scripted(random, &draft, plan)
}

/// Dates near the last one.
fn late(random: &mut Random) -> Vec<u8> {
    let clocks = random.byte(1, 2);
    let profile = Profile {
        locations: (1, 6),
        resets: random.between(30, 80),
        goal: random.pick(&[Goal::Last, Goal::Percent(30), Goal::Percent(60)]),
        ..profile(random, clocks)
    };
    let draft = draw(random, &profile);
    let mut script = Script::new(&draft.bytes());
    let general = plan(random).steering(90, not_dropped);
    // At times the schedule is full before the dates are late.
    let early = random.pick(&[0, 1, 4, 45]);
    let start = general.collecting(0).pacing(SLOW);
    script.follow(random, start.steering(90, schedules).times(early));
    let before = random.pick(&[0, 1, 5, CAPPED, CAPPED + 1, 2 * CAPPED, 200]);
    script.offer(0, LAST_DATE - random.between(0, before));
    script.follow(random, general);
    script.follow(random, general.steering(90, schedules).times(10));
    script.offer(0, LAST_DATE + random.between(0, 1));
    script.follow(random, general.steering(90, schedules).times(5));
    script.drain(random);
    script.finish()
}

/// The course sheets with random calls.
fn course(random: &mut Random) -> Vec<u8> {
    let mut script = Script::new(random.pick(&[A, B, C, D, E]));
    let steered = random.between(0, 80);
    let plan = plan(random).steering(steered, not_dropped);
    script.follow(random, plan);
    script.drain(random);
    script.finish()
}

/// Good sheets with damage.
fn bad_sheet(random: &mut Random) -> Vec<u8> {
    let clocks = random.byte(1, 2);
    let profile = profile(random, clocks);
    let draft = draw(random, &profile);
    let mut input = with_length(&damaged(random, draft));
    let count = random.between(0, 6);
    push_random_calls(random, &mut input, count);
    input
}

/// Good sheets with one field next to an edge of its range.
fn edge_sheet(random: &mut Random) -> Vec<u8> {
    let clocks = random.byte(1, 2);
    let profile = profile(random, clocks);
    let draft = draw(random, &profile);
    let mut input = with_length(&at_an_edge(random, draft));
    let count = random.between(0, 6);
    push_random_calls(random, &mut input, count);
    input
}

/// Calls that are often refused for their action or date.
fn bad_calls(random: &mut Random) -> Vec<u8> {
    let clocks = random.byte(1, 2);
    let profile = profile(random, clocks);
    let draft = draw(random, &profile);
    let plan = plan(random).straying(60);
    scripted(random, &draft, plan)
}

/// Good inputs with one to four bytes too many.
fn tails(random: &mut Random) -> Vec<u8> {
    let mut input = course(random);
    if random.chance(50) {
        input = one_clock(random);
    }
    push_tail(random, &mut input);
    input
}

/// Adds one to four bytes, fewer than a call has.
pub(super) fn push_tail(random: &mut Random, input: &mut Vec<u8>) {
    for _ in 0..random.between(1, 4) {
        input.push(random.byte(0, 255));
    }
}

/// Inputs that end somewhere.
fn truncated(random: &mut Random) -> Vec<u8> {
    let mut input = if random.chance(50) {
        course(random)
    } else {
        two_clocks(random)
    };
    let length = if random.chance(20) {
        random.below(8)
    } else {
        random.below(input.len() + 1)
    };
    input.truncate(length);
    input
}

/// Random bytes, at times with a length and counts that fit.
fn any_bytes(random: &mut Random) -> Vec<u8> {
    let length = random.pick(&[0, 1, 2, 5, 10, 30, 100, 700]);
    let mut bytes: Vec<u8> = (0..length).map(|_| random.byte(0, 255)).collect();
    match random.below(4) {
        0 => bytes,
        1 => with_length(&bytes),
        2 => small_bytes(random, &bytes),
        _ => {
            bytes.splice(0..0, with_length(&tiny_sheet(random)));
            push_call(&mut bytes, 0, random.between(0, 9));
            bytes
        }
    }
}

/// Bytes made small, a counted part of them as the sheet, often with counts
/// and an initial location that fit.
fn small_bytes(random: &mut Random, bytes: &[u8]) -> Vec<u8> {
    let mut sheet: Vec<u8> = bytes.iter().map(|byte| byte % 4).collect();
    let calls = sheet.split_off(random.below(sheet.len() + 1));
    let fitting = [random.byte(1, 3), random.byte(1, 2), 3, 0, 1, 0];
    for (byte, value) in sheet.iter_mut().zip(fitting) {
        if random.chance(90) {
            *byte = value;
        }
    }
    let mut input = with_length(&sheet);
    input.extend(calls);
    input
}

/// One location with one transition whose fields are drawn alone.
fn tiny_sheet(random: &mut Random) -> Vec<u8> {
    let clocks = random.byte(1, 2);
    let mut sheet = vec![1, clocks, 2, 0, random.byte(0, 1), 0, 10, 0, 7, 0];
    let highs = [1, 0, 1, MAX_BOUND, UNBOUNDED, MAX_BOUND, UNBOUNDED];
    sheet.extend(highs.map(|high| random.byte(0, high)));
    // Mostly no upper bounds, and nothing for clock 2.
    for (at, value) in [(14, UNBOUNDED), (15, 0), (16, UNBOUNDED)] {
        if random.chance(75) {
            sheet[at] = value;
        }
    }
    sheet
}
