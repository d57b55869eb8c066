//! Random automata whose guards do not overlap, and their bytes.

use crate::limits::{MAX_BOUND, MAX_TRANSITIONS};
use crate::random::Random;
use crate::sheet::{HEADER, PAIR, RULE, UNBOUNDED};

/// A sheet that can still be changed: fields as they stand in the bytes.
#[derive(Clone, Debug)]
pub struct Draft {
    pub locations: u8,
    pub clocks: u8,
    pub actions: u8,
    pub initial: u8,
    pub accepting: u16,
    /// The transitions of each location, seven bytes each.
    pub outgoing: Vec<Vec<[u8; RULE]>>,
}

/// The largest bound before it was raised. A box that still refuses the next one,
/// or takes readings above it for the same, must be found.
pub const EARLIER_MOST: u8 = 30;

/// Which numbers the guards are cut at.
#[derive(Clone, Copy, Debug)]
pub struct Bounds {
    pub low: u8,
    pub high: u8,
}

/// Which locations are accepting.
#[derive(Clone, Copy, Debug)]
pub enum Goal {
    /// None at all.
    Nowhere,
    /// The last location alone.
    Last,
    /// Each location with so many cases in a hundred, at least one.
    Percent(u32),
}

/// How random automata are drawn; shares are cases in a hundred.
#[derive(Clone, Copy, Debug)]
pub struct Profile {
    pub locations: (u8, u8),
    pub clocks: u8,
    pub actions: (u8, u8),
    pub bounds: Bounds,
    /// How often the readings of a location and action are split at most.
    pub splits: u32,
    /// Share of the pairs of location and action that have transitions.
    pub density: u32,
    /// Share of the transitions that lead to the next location.
    pub forward: u32,
    /// Share of the clocks that a transition resets.
    pub resets: u32,
    /// Share of the pieces that are left out or made smaller.
    pub gaps: u32,
    pub goal: Goal,
}

/// A low and a high for each clock.
type Piece = [[u8; 2]; 2];

/// The piece that has all readings.
const WHOLE: Piece = [[0, UNBOUNDED]; 2];

impl Draft {
    /// The number of transitions.
    pub fn size(&self) -> usize {
        self.outgoing.iter().map(Vec::len).sum()
    }

    /// The bytes of the sheet.
    pub fn bytes(&self) -> Vec<u8> {
        let [low, high] = self.accepting.to_le_bytes();
        let mut bytes = vec![
            self.locations,
            self.clocks,
            self.actions,
            self.initial,
            low,
            high,
        ];
        let mut offset = HEADER + PAIR * self.outgoing.len();
        for rules in &self.outgoing {
            let length = RULE * rules.len();
            bytes.extend_from_slice(&(offset as u16).to_le_bytes());
            bytes.extend_from_slice(&(length as u16).to_le_bytes());
            offset += length;
        }
        bytes.extend(self.outgoing.iter().flatten().flatten());
        bytes
    }
}

/// Draws an automaton. It always loads.
pub fn draw(random: &mut Random, profile: &Profile) -> Draft {
    let locations = random.byte(profile.locations.0, profile.locations.1);
    let actions = random.byte(profile.actions.0, profile.actions.1);
    let initial = if random.chance(85) {
        0
    } else {
        random.byte(0, locations - 1)
    };
    let mut draft = Draft {
        locations,
        clocks: profile.clocks,
        actions,
        initial,
        accepting: accepting(random, profile.goal, locations),
        outgoing: vec![Vec::new(); usize::from(locations)],
    };
    for (location, action) in pairs(random, profile, locations, actions) {
        add_transitions(random, profile, &mut draft, location, action);
    }
    for rules in &mut draft.outgoing {
        random.shuffle(rules);
    }
    draft
}

fn accepting(random: &mut Random, goal: Goal, locations: u8) -> u16 {
    match goal {
        Goal::Nowhere => 0,
        Goal::Last => 1 << (locations - 1),
        Goal::Percent(share) => {
            let certain = 1 << random.byte(0, locations - 1);
            let each = 0..locations;
            each.fold(certain, |set, location| {
                set | u16::from(random.chance(share)) << location
            })
        }
    }
}

/// The pairs of location and action to give transitions: first one pair for
/// each location, so that chains arise, then others in a random order.
fn pairs(random: &mut Random, profile: &Profile, locations: u8, actions: u8) -> Vec<(u8, u8)> {
    let chain: Vec<u8> = (0..locations)
        .map(|_| random.byte(0, actions - 1))
        .collect();
    let mut others = Vec::new();
    for location in 0..locations {
        for action in 0..actions {
            if chain[usize::from(location)] != action && random.chance(profile.density) {
                others.push((location, action));
            }
        }
    }
    random.shuffle(&mut others);
    let mut pairs: Vec<(u8, u8)> = (0..locations).zip(chain).collect();
    pairs.extend(others);
    pairs
}

/// Splits the readings of one location and action and gives each piece a
/// transition, as far as the sheet has room.
fn add_transitions(
    random: &mut Random,
    profile: &Profile,
    draft: &mut Draft,
    location: u8,
    action: u8,
) {
    let mut pieces = Vec::new();
    split(random, profile, WHOLE, profile.splits, &mut pieces);
    random.shuffle(&mut pieces);
    for (index, mut piece) in pieces.into_iter().enumerate() {
        if random.chance(profile.gaps) {
            // The first piece is never left out, so that the pair has a transition.
            if index > 0 && random.chance(40) {
                continue;
            }
            shrink(random, profile, &mut piece);
        }
        if draft.size() < MAX_TRANSITIONS {
            let rule = transition(random, profile, draft, location, action, piece);
            draft.outgoing[usize::from(location)].push(rule);
        }
    }
}

fn transition(
    random: &mut Random,
    profile: &Profile,
    draft: &Draft,
    location: u8,
    action: u8,
    piece: Piece,
) -> [u8; RULE] {
    let last = draft.locations - 1;
    let target = if location < last && random.chance(profile.forward) {
        location + 1
    } else {
        random.byte(0, last)
    };
    let reset_first = u8::from(random.chance(profile.resets));
    let reset_second = u8::from(profile.clocks == 2 && random.chance(profile.resets));
    let [[low_1, high_1], [low_2, high_2]] = piece;
    let resets = reset_first + 2 * reset_second;
    [action, target, resets, low_1, high_1, low_2, high_2]
}

/// Cuts a piece in two along a random clock, and the halves again.
fn split(random: &mut Random, profile: &Profile, piece: Piece, splits: u32, out: &mut Vec<Piece>) {
    let clock = random.below(profile.clocks.into());
    let cut = random.byte(profile.bounds.low, profile.bounds.high);
    let [low, high] = piece[clock];
    if splits == 0 || cut <= low || cut > high || random.chance(15) {
        out.push(piece);
        return;
    }
    let (mut lower, mut upper) = (piece, piece);
    lower[clock] = [low, cut - 1];
    upper[clock] = [cut, high];
    split(random, profile, lower, splits - 1, out);
    split(random, profile, upper, splits - 1, out);
}

/// Raises a low or lowers a high of a piece, along a random clock.
fn shrink(random: &mut Random, profile: &Profile, piece: &mut Piece) {
    let side = &mut piece[random.below(profile.clocks.into())];
    let mut bound = random.byte(profile.bounds.low, profile.bounds.high);
    if random.chance(25) {
        bound = profile.bounds.high;
    }
    if bound < side[0] || bound > side[1].min(MAX_BOUND) {
        return;
    }
    side[random.below(2)] = bound;
}
