//! Random sheets of one clock with a wanted number of transitions for each action.

use crate::generate::Draft;
use crate::limits::{MAX_BOUND, MAX_TRANSITIONS};
use crate::random::Random;
use crate::sheet::{MAX_ACTIONS, UNBOUNDED};

/// The most transitions that one location can have for one action: each needs a
/// low of its own.
const LOWS: usize = MAX_BOUND as usize + 1;

/// How many transitions each action has in two sheets. The product has the sum of
/// what each two numbers multiply to.
pub type Counts = [Vec<usize>; 2];

/// Counts for a product of so many transitions, a few hundred at most.
pub fn counts(random: &mut Random, total: usize) -> Counts {
    let mut drawn = (0..).map(|_| some_counts(random, total));
    let fitting = drawn.find(fits);
    fitting.expect("few actions with many transitions fit")
}

/// Whether a sheet has room for each of the counts.
fn fits(counts: &Counts) -> bool {
    let mut counts = counts.iter();
    counts.all(|counts| {
        let sum: usize = counts.iter().sum();
        sum <= MAX_TRANSITIONS && counts.len() <= MAX_ACTIONS
    })
}

fn some_counts(random: &mut Random, total: usize) -> Counts {
    let mut pairs = Vec::new();
    let mut left = total;
    let most = total.isqrt().max(12);
    while left > 0 {
        let one = 1 + random.below(left.min(most));
        let other = 1 + random.below((left / one).min(most));
        pairs.push(random.pick(&[[one, other], [other, one]]));
        left -= one * other;
    }
    // Some actions have transitions in one sheet only, or in none.
    for _ in 0..random.below(4).max(usize::from(total == 0)) {
        let some = random.below(4);
        pairs.push(random.pick(&[[some, 0], [0, some]]));
    }
    random.shuffle(&mut pairs);
    [0, 1].map(|sheet| pairs.iter().map(|pair| pair[sheet]).collect())
}

/// A sheet with so many locations and, over all of them, so many transitions of
/// each action. It loads if its locations have room. One location has more of them
/// than others, and many runs come there.
pub fn sheet_with(random: &mut Random, locations: u8, counts: &[usize]) -> Draft {
    let home = random.byte(0, locations - 1);
    let accepting = (0..locations).fold(0, |set, location| {
        let share = if location == home { 80 } else { 50 };
        set | u16::from(random.chance(share)) << location
    });
    let mut draft = Draft {
        locations,
        clocks: 1,
        actions: counts.len() as u8,
        initial: place(random, locations, home),
        accepting,
        outgoing: vec![Vec::new(); usize::from(locations)],
    };
    for (action, count) in (0..).zip(counts) {
        let shares = shares(random, locations, home, *count);
        for (rules, share) in draft.outgoing.iter_mut().zip(shares) {
            for [low, high] in pieces(random, share) {
                let target = place(random, locations, home);
                let reset = u8::from(random.chance(40));
                rules.push([action, target, reset, low, high, 0, UNBOUNDED]);
            }
        }
    }
    for rules in &mut draft.outgoing {
        random.shuffle(rules);
    }
    draft
}

/// A location, often this one.
fn place(random: &mut Random, locations: u8, home: u8) -> u8 {
    let any = random.byte(0, locations - 1);
    random.pick(&[home, any])
}

/// The least number of locations that have room for so many of each action.
pub fn least_locations(counts: &[usize]) -> u8 {
    let most = counts.iter().max().copied().unwrap_or(0);
    most.div_ceil(LOWS).max(1) as u8
}

/// Deals a number out to the locations, of which one gets more than others.
fn shares(random: &mut Random, locations: u8, home: u8, count: usize) -> Vec<usize> {
    let mut shares = vec![0; usize::from(locations)];
    for _ in 0..count {
        let mut at = usize::from(place(random, locations, home));
        while shares[at] == LOWS {
            at = (at + 1) % shares.len();
        }
        shares[at] += 1;
    }
    shares
}

/// So many intervals that do not meet, most of them side by side.
fn pieces(random: &mut Random, count: usize) -> Vec<[u8; 2]> {
    let mut lows: Vec<u8> = (0..=MAX_BOUND).collect();
    random.shuffle(&mut lows);
    lows.truncate(count);
    lows.sort_unstable();
    if let (Some(first), true) = (lows.first_mut(), random.chance(60)) {
        *first = 0;
    }
    let mut pieces = Vec::new();
    for (place, low) in lows.iter().enumerate() {
        let high = match lows.get(place + 1) {
            Some(next) if random.chance(80) => next - 1,
            Some(next) => random.byte(*low, next - 1),
            None if random.chance(70) => UNBOUNDED,
            None => random.byte(*low, MAX_BOUND),
        };
        pieces.push([*low, high]);
    }
    pieces
}
