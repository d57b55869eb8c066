//! Random gaps, and logs made of them.

use super::{Format, Record};
use crate::limits::LAST_DATE;
use crate::random::Random;

/// A gap, often 0 and mostly short.
fn gap(random: &mut Random, most: u32) -> u32 {
    match random.below(20) {
        0..8 => 0,
        8..12 => random.between(0, most.min(3)),
        12..17 => random.between(0, most.min(300)),
        17..19 => random.between(0, most.min(70_000)),
        _ => random.between(0, most),
    }
}

/// So many gaps, none above `most`, whose sum is not above `end`.
pub fn gaps(random: &mut Random, count: usize, most: u32, end: u32) -> Vec<u32> {
    let mut left = end;
    let mut next = |_| {
        let gap = gap(random, most).min(left);
        left -= gap;
        gap
    };
    (0..count).map(&mut next).collect()
}

/// Gaps of a log that is accepted: some early, some from any date on.
pub fn sound_gaps(random: &mut Random, count: usize) -> Vec<u32> {
    let mut gaps = gaps(random, count, 20_000_000, LAST_DATE / 2);
    if let (Some(first), true) = (gaps.first_mut(), random.chance(40)) {
        *first = random.between(0, LAST_DATE / 2);
    }
    gaps
}

/// The dates that gaps lead to, in 32 bits.
pub fn sums(gaps: &[u32]) -> Vec<u32> {
    let add = |sum: &mut u32, gap: &u32| {
        *sum = sum.wrapping_add(*gap);
        Some(*sum)
    };
    gaps.iter().scan(0, add).collect()
}

/// A log of a format with these gaps, and any actions.
pub fn log_of(random: &mut Random, format: Format, gaps: &[u32]) -> Vec<u8> {
    match format {
        Format::Dates => with_actions(random, &sums(gaps)),
        Format::Gaps => with_actions(random, gaps),
    }
}

/// A log with these ticks, and any actions.
pub fn with_actions(random: &mut Random, ticks: &[u32]) -> Vec<u8> {
    let mut log = Vec::new();
    for &ticks in ticks {
        let action = random.byte(0, 255);
        log.extend_from_slice(&Record { ticks, action }.bytes());
    }
    log
}

/// So many bytes, each any.
pub fn any_bytes(random: &mut Random, count: usize) -> Vec<u8> {
    (0..count).map(|_| random.byte(0, 255)).collect()
}

/// One of the formats.
pub fn format(random: &mut Random) -> Format {
    random.pick(&[Format::Dates, Format::Gaps])
}
