//! Random logs: named kinds, each deterministic from a seed.

use super::draw::{any_bytes, format, gaps, log_of, sound_gaps, sums, with_actions};
use super::{Format, RECORD};
use crate::limits::LAST_DATE;
use crate::random::Random;
use crate::seeds::Named;

/// A log, its format, and the output as it is lent.
#[derive(Clone, Debug, PartialEq, Eq)]
pub struct Case {
    pub from: Format,
    pub log: Vec<u8>,
    pub output: Vec<u8>,
}

/// A kind of logs.
pub struct Kind {
    pub name: &'static str,
    make: fn(&mut Random, u64) -> Case,
}

impl Kind {
    /// The case of this kind for a seed.
    pub fn case(&self, seed: u64) -> Case {
        (self.make)(&mut Random::named(self.name, seed), seed)
    }
}

impl Named for Kind {
    fn name(&self) -> &'static str {
        self.name
    }
}

/// All kinds.
pub const KINDS: &[Kind] = &[
    kind("dates", |random, _| accepted(random, Format::Dates)),
    kind("gaps", |random, _| accepted(random, Format::Gaps)),
    kind("damaged", |random, _| damaged(random)),
    kind("short_lengths", short),
    kind("near_limit", |random, _| near_limit(random)),
    kind("near_wrap", |random, _| near_wrap(random)),
    kind("other_output", |random, _| other_output(random)),
    kind("falling", |random, _| falling(random)),
    kind("many_faults", |random, _| many_faults(random)),
    kind("long", |random, _| long(random)),
    kind("any_bytes", |random, _| any(random)),
];

const fn kind(name: &'static str, make: fn(&mut Random, u64) -> Case) -> Kind {
    Kind { name, make }
}

/// The kind of a name.
pub fn kind_named(name: &str) -> Option<&'static Kind> {
    KINDS.iter().find(|kind| kind.name == name)
}

/// Lengths, below this one, that short logs have.
const SHORT: u64 = 25;

/// A log with an output of its length, which has any bytes.
fn fitting(random: &mut Random, from: Format, log: Vec<u8>) -> Case {
    let output = any_bytes(random, log.len());
    Case { from, log, output }
}

/// A log that is accepted.
fn accepted(random: &mut Random, from: Format) -> Case {
    let count = random.below(60);
    let gaps = sound_gaps(random, count);
    let log = log_of(random, from, &gaps);
    fitting(random, from, log)
}

/// An accepted log of which one or a few bytes are changed, left out or added.
fn damaged(random: &mut Random) -> Case {
    let from = format(random);
    let mut case = accepted(random, from);
    for _ in 0..random.pick(&[1, 1, 1, 2, 3]) {
        damage(random, &mut case.log);
    }
    // At times the output keeps the length that it had.
    if random.chance(80) {
        case.output = any_bytes(random, case.log.len());
    }
    case
}

fn damage(random: &mut Random, log: &mut Vec<u8>) {
    let at = random.below(log.len() + 1);
    let byte = random.byte(0, 255);
    match log.get_mut(at) {
        Some(place) => match random.below(10) {
            0 => drop(log.remove(at)),
            1 => log.insert(at, byte),
            2..6 => *place ^= 1 << random.below(8),
            _ => *place = byte,
        },
        None => log.push(byte),
    }
}

/// Each short length in its turn, in either format.
fn short(random: &mut Random, seed: u64) -> Case {
    let length = (seed % SHORT) as usize;
    let from = match seed / SHORT % 2 {
        0 => Format::Dates,
        _ => Format::Gaps,
    };
    let mut log = any_bytes(random, length);
    // With few ticks it may well be accepted.
    if random.chance(60) {
        for record in log.chunks_mut(RECORD) {
            let ticks = record.iter_mut().take(RECORD - 1);
            ticks
                .zip([3, 0, 0, 0])
                .for_each(|(byte, kept)| *byte &= kept);
        }
    }
    let mut case = fitting(random, from, log);
    if random.chance(20) {
        let lent = random.below(SHORT as usize);
        case.output = any_bytes(random, lent);
    }
    case
}

/// Dates and sums a few ticks around the limit.
fn near_limit(random: &mut Random) -> Case {
    let from = format(random);
    let before = random.below(8);
    let mut gaps = gaps(random, before, LAST_DATE, LAST_DATE - 3);
    let left = LAST_DATE - sums(&gaps).last().unwrap_or(&0);
    let more = random.pick(&[0, 0, 3]);
    gaps.push(random.between(left - 3, left + more));
    for _ in 0..random.below(6) {
        gaps.push(random.pick(&[0, 0, 0, 1, 2]));
    }
    let log = log_of(random, from, &gaps);
    fitting(random, from, log)
}

/// Ticks that 31 or 32 bits would take for others, which may be accepted.
fn near_wrap(random: &mut Random) -> Case {
    let from = format(random);
    let count = random.below(8);
    let mut ticks = sound_gaps(random, count);
    let sum = sums(&ticks).last().copied().unwrap_or(0);
    let start = match from {
        Format::Dates => 0,
        Format::Gaps => sum,
    };
    if from == Format::Dates {
        ticks = sums(&ticks);
    }
    // The date that this record has or leads to, without its upper bits.
    let earlier = random.between(0, sum);
    let date = random.pick(&[0, sum, earlier, LAST_DATE]);
    let near = date.wrapping_add(random.between(0, 4)).wrapping_sub(2);
    let half = random.pick(&[0, 0, 1 << 31]);
    ticks.push(near.wrapping_add(half).wrapping_sub(start));
    for _ in 0..random.below(4) {
        ticks.push(random.pick(&[0, 1, u32::MAX, 1 << 31, (1 << 31) - 1]));
    }
    let log = with_actions(random, &ticks);
    fitting(random, from, log)
}

/// An output of another length than the log, or both with a length that no log
/// has; the log may have other faults too.
fn other_output(random: &mut Random) -> Case {
    let from = format(random);
    let mut case = match random.below(3) {
        0 => near_limit(random),
        _ => accepted(random, from),
    };
    let length = case.log.len();
    if random.chance(20) {
        let more = 1 + random.below(RECORD - 1);
        case.log.extend(any_bytes(random, more));
    }
    let lengths = [
        0,
        length.saturating_sub(1),
        length.saturating_sub(RECORD),
        length + 1,
        length + RECORD,
        2 * length + RECORD,
        case.log.len(),
        random.below(300),
    ];
    let lent = random.pick(&lengths);
    case.output = any_bytes(random, lent);
    case
}

/// Dates that fall once, most by one tick, some to 0.
fn falling(random: &mut Random) -> Case {
    let count = 2 + random.below(40);
    let gaps = sound_gaps(random, count);
    let mut dates = sums(&gaps);
    let at = 1 + random.below(count - 1);
    // Later dates fall as much, so that there is one fault.
    let fall = random.pick(&[1, 1, 2, 300, dates[at - 1]]);
    let most = gaps[at].saturating_add(fall);
    for date in &mut dates[at..] {
        *date = date.saturating_sub(most);
    }
    let log = with_actions(random, &dates);
    fitting(random, Format::Dates, log)
}

/// An accepted log of which several records get ticks that are too many or too
/// few, so that the first of these decides.
fn many_faults(random: &mut Random) -> Case {
    let from = format(random);
    let count = 1 + random.below(30);
    let gaps = sound_gaps(random, count);
    let mut ticks = match from {
        Format::Dates => sums(&gaps),
        Format::Gaps => gaps,
    };
    for _ in 0..random.between(2, 6) {
        let at = random.below(count);
        let few = ticks[at].saturating_sub(random.pick(&[1, 2, 1000]));
        let late = random.between(LAST_DATE, LAST_DATE + 2);
        let latest = random.between(LAST_DATE, u32::MAX);
        ticks[at] = random.pick(&[few, few, 0, late, latest]);
    }
    let log = with_actions(random, &ticks);
    fitting(random, from, log)
}

/// Thousands of records, at times with a fault near the end.
fn long(random: &mut Random) -> Case {
    let from = format(random);
    let count = random.between(2_000, 9_000) as usize;
    let mut gaps = gaps(random, count, 400_000, LAST_DATE);
    if random.chance(30) {
        let last = count - 1 - random.below(3);
        gaps[last] = random.between(LAST_DATE, u32::MAX);
    }
    let log = log_of(random, from, &gaps);
    fitting(random, from, log)
}

/// Any bytes, most of them in whole records.
fn any(random: &mut Random) -> Case {
    let from = format(random);
    let length = match random.below(3) {
        0 => random.below(200),
        _ => RECORD * random.below(40),
    };
    let log = any_bytes(random, length);
    let mut case = fitting(random, from, log);
    if random.chance(10) {
        let lent = random.below(200);
        case.output = any_bytes(random, lent);
    }
    case
}
