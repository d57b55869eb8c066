//! Damage to good sheets, so that each reason against a sheet occurs.

use super::draft::{Draft, EARLIER_MOST};
use crate::limits::MAX_BOUND;
use crate::random::Random;
use crate::sheet::{HEADER, LONGEST, PAIR, RULE, UNBOUNDED};

/// A draft and the bytes made from it, which take the damage.
struct Victim {
    draft: Draft,
    bytes: Vec<u8>,
}

/// A way to damage the bytes of a sheet.
type Damage = fn(&mut Random, &mut Victim);

/// The ways that change bytes; some leave the sheet good by chance.
const DAMAGES: &[Damage] = &[
    wrong_length,
    wrong_count,
    wrong_count,
    wrong_location,
    wrong_location,
    wrong_location,
    wrong_pair,
    moved_border,
    moved_tables,
    wrong_end,
    wrong_field,
    wrong_field,
    wrong_bounds,
    wrong_bounds,
    wrong_byte,
];

/// The ways that set one field next to an edge.
const EDGES: &[Damage] = &[
    wrong_count,
    wrong_location,
    wrong_pair,
    moved_border,
    moved_tables,
    wrong_field,
    wrong_field,
    edge_bound,
    edge_bound,
    edge_bound,
    edge_bound,
    edge_bound,
];

/// The bytes of a draft with one to three damages.
pub fn damaged(random: &mut Random, mut draft: Draft) -> Vec<u8> {
    if random.chance(30) {
        overlap(random, &mut draft);
        if random.chance(60) {
            return draft.bytes();
        }
    }
    if random.chance(8) {
        crowd(random, &mut draft);
        if random.chance(70) {
            return draft.bytes();
        }
    }
    let bytes = draft.bytes();
    let mut victim = Victim { draft, bytes };
    let times = random.pick(&[1, 1, 1, 2, 2, 3]);
    for _ in 0..times {
        random.pick(DAMAGES)(random, &mut victim);
    }
    victim.bytes
}

/// The bytes of a draft with one field at or past an edge of its range, or
/// with two transitions that meet or nearly so.
pub fn at_an_edge(random: &mut Random, mut draft: Draft) -> Vec<u8> {
    if random.chance(20) {
        overlap(random, &mut draft);
        return draft.bytes();
    }
    let bytes = draft.bytes();
    let mut victim = Victim { draft, bytes };
    random.pick(EDGES)(random, &mut victim);
    victim.bytes
}

/// Repeats a transition with another target, or lets two meet at an edge.
fn overlap(random: &mut Random, draft: &mut Draft) {
    let Some((location, index)) = some_transition(random, draft) else {
        return;
    };
    let last = draft.locations - 1;
    let rules = &mut draft.outgoing[location];
    let mut copy = rules[index];
    copy[1] = random.byte(0, last);
    // The copy may start where the first ends, or one tick later.
    let low = 3 + 2 * random.below(draft.clocks.into());
    if copy[low + 1] < MAX_BOUND && random.chance(60) {
        copy[low] = copy[low + 1] + random.byte(0, 1);
        copy[low + 1] = random.pick(&[copy[low], MAX_BOUND, UNBOUNDED]);
    }
    let place = random.below(rules.len() + 1);
    rules.insert(place, copy);
}

/// Gives the draft 64 to 70 transitions, if they fit in a sheet.
fn crowd(random: &mut Random, draft: &mut Draft) {
    let wanted = random.between(64, 70) as usize;
    let last = draft.locations - 1;
    let action = random.byte(0, draft.actions - 1);
    while draft.size() < wanted {
        let low = random.byte(0, MAX_BOUND);
        let location = random.below(draft.outgoing.len());
        let target = random.byte(0, last);
        draft.outgoing[location].push([action, target, 0, low, low, 0, UNBOUNDED]);
    }
}

/// A location and the place of one of its transitions.
fn some_transition(random: &mut Random, draft: &Draft) -> Option<(usize, usize)> {
    let sizes = draft.outgoing.iter().map(Vec::len).enumerate();
    let places: Vec<(usize, usize)> = sizes
        .flat_map(|(location, size)| (0..size).map(move |index| (location, index)))
        .collect();
    (!places.is_empty()).then(|| random.pick(&places))
}

/// Sets a byte, if the sheet still has it.
fn set(bytes: &mut [u8], at: usize, value: u8) {
    if let Some(byte) = bytes.get_mut(at) {
        *byte = value;
    }
}

/// Makes the sheet too short, too long, or just long enough.
fn wrong_length(random: &mut Random, victim: &mut Victim) {
    let Victim { bytes, .. } = victim;
    let lengths = [
        0,
        1,
        5,
        HEADER,
        HEADER + 1,
        LONGEST,
        LONGEST + 1,
        LONGEST + 7,
        600,
    ];
    bytes.resize(random.pick(&lengths), random.pick(&[0, 255]));
}

/// The numbers of locations, clocks and actions at their edges.
fn wrong_count(random: &mut Random, victim: &mut Victim) {
    let Victim { bytes, .. } = victim;
    let at = random.below(3);
    let values: &[u8] = if at == 1 {
        &[0, 1, 2, 3, 255]
    } else {
        &[0, 1, 16, 17, 255]
    };
    set(bytes, at, random.pick(values));
}

/// The initial location or an accepting bit.
fn wrong_location(random: &mut Random, victim: &mut Victim) {
    let Victim { draft, bytes } = victim;
    if random.chance(50) {
        let edge = draft.locations;
        set(bytes, 3, random.pick(&[edge - 1, edge, edge + 1, 255]));
    } else {
        let bit = random
            .pick(&[draft.locations - 1, draft.locations, 15])
            .min(15);
        let [low, high] = (draft.accepting | 1 << bit).to_le_bytes();
        set(bytes, 4, low);
        set(bytes, 5, high);
    }
}

/// Adds to a two-byte number, if the sheet still has it.
fn add(bytes: &mut [u8], at: usize, change: u16) {
    if at + 1 < bytes.len() {
        let number = u16::from_le_bytes([bytes[at], bytes[at + 1]]);
        let changed = number.wrapping_add(change).to_le_bytes();
        bytes[at..at + 2].copy_from_slice(&changed);
    }
}

/// An offset or a length that is off.
fn wrong_pair(random: &mut Random, victim: &mut Victim) {
    let Victim { draft, bytes } = victim;
    let location = random.below(draft.outgoing.len());
    let at = HEADER + PAIR * location + 2 * random.below(2);
    let change = random.pick(&[1, 7, 14, 256, 65535, 65529]);
    add(bytes, at, change);
    // At times the next pair follows suit, so that only the end is off.
    if random.chance(30) {
        add(bytes, at + PAIR, change);
    }
}

/// The border between two locations moved, so that all sums still fit.
fn moved_border(random: &mut Random, victim: &mut Victim) {
    let Victim { draft, bytes } = victim;
    if draft.locations > 1 {
        let pair = HEADER + PAIR * random.below(draft.outgoing.len() - 1);
        let change: u16 = random.pick(&[1, 6, 7, 65535, 65529]);
        add(bytes, pair + 2, change);
        add(bytes, pair + 4, change);
        add(bytes, pair + 6, change.wrapping_neg());
    }
}

/// All tables moved away from the pairs, so that only the first offset is off.
fn moved_tables(random: &mut Random, victim: &mut Victim) {
    let Victim { draft, bytes } = victim;
    let start = HEADER + PAIR * draft.outgoing.len();
    if start <= bytes.len() {
        let gap = random.pick(&[1, 7]);
        bytes.splice(start..start, vec![0; gap]);
        for pair in (HEADER..start).step_by(PAIR) {
            add(bytes, pair, gap as u16);
        }
    }
}

/// Bytes cut from the end or added to it.
fn wrong_end(random: &mut Random, victim: &mut Victim) {
    let Victim { bytes, .. } = victim;
    let change = random.pick(&[1, 6, 7, 8, 14]);
    if random.chance(50) {
        bytes.truncate(bytes.len().saturating_sub(change));
    } else {
        let length = bytes.len() + change;
        bytes.resize(length, 0);
    }
}

/// Where a random transition starts in the bytes of a draft.
fn some_place(random: &mut Random, draft: &Draft) -> Option<usize> {
    let start = HEADER + PAIR * draft.outgoing.len();
    let size = draft.size();
    (size > 0).then(|| start + RULE * random.below(size))
}

/// The action, target or resets of a transition at their edges.
fn wrong_field(random: &mut Random, victim: &mut Victim) {
    let Victim { draft, bytes } = victim;
    let Some(place) = some_place(random, draft) else {
        return;
    };
    let field = random.below(3);
    let edge = [draft.actions, draft.locations, 4][field];
    let value = random.pick(&[edge - 1, edge, edge + 1, 2, 255]);
    set(bytes, place + field, value);
}

/// A low or a high of a transition at its edges.
fn wrong_bounds(random: &mut Random, victim: &mut Victim) {
    let Victim { draft, bytes } = victim;
    let Some(place) = some_place(random, draft) else {
        return;
    };
    let field = 3 + random.below(4);
    let other = if field % 2 == 1 { field + 1 } else { field - 1 };
    let beside = bytes.get(place + other).copied().unwrap_or(0);
    let near = [beside.wrapping_add(1), beside.wrapping_sub(1), beside];
    let value = match random.below(8) {
        0..4 => random.pick(&near),
        4 => random.byte(EARLIER_MOST, EARLIER_MOST + 2),
        5 => random.byte(MAX_BOUND - 1, MAX_BOUND + 2),
        _ => random.pick(&[0, 1, MAX_BOUND + 1, 254, 255]),
    };
    set(bytes, place + field, value);
}

/// A low next to the largest bound without upper bound, or a high next to its
/// low, to the largest bound, or to 255. At times a bound is next to the one
/// that was the largest.
fn edge_bound(random: &mut Random, victim: &mut Victim) {
    let Victim { draft, bytes } = victim;
    let Some(place) = some_place(random, draft) else {
        return;
    };
    let low = place + 3 + 2 * random.below(draft.clocks.into());
    if random.chance(40) {
        let earlier = random.byte(EARLIER_MOST, EARLIER_MOST + 1);
        bytes[low] = random.pick(&[earlier, MAX_BOUND, MAX_BOUND + 1, MAX_BOUND + 1]);
        bytes[low + 1] = UNBOUNDED;
    } else {
        let beside = bytes[low];
        let below = beside.saturating_sub(1);
        let past = random.pick(&[MAX_BOUND + 1, MAX_BOUND + 1, MAX_BOUND + 1, 254]);
        let edges = [
            below,
            beside,
            EARLIER_MOST + 1,
            MAX_BOUND,
            past,
            past,
            UNBOUNDED,
        ];
        bytes[low + 1] = random.pick(&edges);
    }
}

/// Any byte to any value.
fn wrong_byte(random: &mut Random, victim: &mut Victim) {
    let Victim { bytes, .. } = victim;
    if !bytes.is_empty() {
        let at = random.below(bytes.len());
        bytes[at] = random.byte(0, 255);
    }
}
