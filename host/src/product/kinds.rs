//! Random pairs of sheets: named kinds, each deterministic from a seed.

use super::counted::{counts, least_locations, sheet_with, Counts};
use super::{rule_count, OUTPUT};
use crate::course::{A, B, C, D, E};
use crate::generate::{at_an_edge, damaged, draw, profile, Draft, Profile};
use crate::limits::{MAX_BOUND, MAX_TRANSITIONS};
use crate::random::Random;
use crate::refusal::Refusal;
use crate::seeds::Named;
use crate::sheet::{self, MAX_ACTIONS, MAX_LOCATIONS};

/// Two sheets, and the output as it is lent.
#[derive(Clone, Debug, PartialEq, Eq)]
pub struct Case {
    pub sheets: [Vec<u8>; 2],
    pub output: Vec<u8>,
}

/// A kind of pairs.
pub struct Kind {
    pub name: &'static str,
    make: fn(&mut Random) -> Case,
}

impl Kind {
    /// The case of this kind for a seed.
    pub fn case(&self, seed: u64) -> Case {
        (self.make)(&mut Random::named(self.name, seed))
    }
}

impl Named for Kind {
    fn name(&self) -> &'static str {
        self.name
    }
}

/// All kinds.
pub const KINDS: &[Kind] = &[
    kind("small", |random| fitting(random, small)),
    kind("matching", |random| fitting(random, matching)),
    kind("course", |random| fitting(random, course)),
    kind("largest", |random| fitting(random, largest)),
    kind("near_64_rules", |random| fitting(random, near_64_rules)),
    kind("too_many_rules", |random| fitting(random, too_many_rules)),
    kind("many_locations", |random| fitting(random, many_locations)),
    kind("two_clocks", |random| fitting(random, two_clocks)),
    kind("other_commands", |random| fitting(random, other_commands)),
    kind("later_reasons", |random| fitting(random, later_reasons)),
    kind("first_refused", |random| fitting(random, first_refused)),
    kind("second_refused", |random| fitting(random, second_refused)),
    kind("both_refused", |random| fitting(random, both_refused)),
    kind("edge_sheets", |random| fitting(random, edge_sheets)),
    kind("other_output", other_output),
    kind("any_bytes", |random| fitting(random, any_sheets)),
];

const fn kind(name: &'static str, make: fn(&mut Random) -> Case) -> Kind {
    Kind { name, make }
}

/// The kind of a name.
pub fn kind_named(name: &str) -> Option<&'static Kind> {
    KINDS.iter().find(|kind| kind.name == name)
}

/// The bytes of two sheets.
type Sheets = [Vec<u8>; 2];

fn bytes(drafts: [Draft; 2]) -> Sheets {
    drafts.map(|draft| draft.bytes())
}

/// So many bytes, each any.
fn any_bytes(random: &mut Random, count: usize) -> Vec<u8> {
    (0..count).map(|_| random.byte(0, 255)).collect()
}

/// Two sheets with an output that is long enough and has any bytes.
fn fitting(random: &mut Random, sheets: fn(&mut Random) -> Sheets) -> Case {
    let sheets = sheets(random);
    let output = any_bytes(random, OUTPUT);
    Case { sheets, output }
}

/// Numbers of locations whose product is at most 16.
fn few_locations(random: &mut Random) -> [u8; 2] {
    let one = random.byte(1, MAX_LOCATIONS as u8);
    let other = random.byte(1, MAX_LOCATIONS as u8 / one);
    random.pick(&[[one, other], [other, one]])
}

/// Draws a sheet with one clock that has so many locations and actions.
fn draw_sheet(random: &mut Random, locations: u8, actions: u8) -> Draft {
    let profile = Profile {
        locations: (locations, locations),
        actions: (actions, actions),
        ..profile(random, 1)
    };
    draw(random, &profile)
}

/// Two sheets of which transitions are left out until the product has room for the
/// rest.
fn thinned(random: &mut Random, mut drafts: [Draft; 2]) -> [Draft; 2] {
    while joined_rules(&drafts) > MAX_TRANSITIONS {
        let draft = &mut drafts[random.below(2)];
        let location = random.below(draft.outgoing.len());
        draft.outgoing[location].pop();
    }
    drafts
}

/// The transitions of the product of two sheets that load.
fn joined_rules(drafts: &[Draft; 2]) -> usize {
    let read = |draft: &Draft| sheet::read(&draft.bytes()).expect("the sheet loads");
    let [first, second] = drafts.each_ref().map(read);
    rule_count(&first, &second)
}

/// Two sheets that are joined, mostly small.
fn small(random: &mut Random) -> Sheets {
    let most = random.pick(&[2, 3, 6, 16]);
    let actions = random.byte(1, most);
    let locations = few_locations(random);
    let drafts = locations.map(|count| draw_sheet(random, count, actions));
    bytes(thinned(random, drafts))
}

/// Two sheets that are joined, with few actions and many transitions for each.
fn matching(random: &mut Random) -> Sheets {
    let actions = random.byte(1, 3);
    let locations = [random.byte(1, 3), random.byte(1, 3)];
    let mut many = || (0..actions).map(|_| 1 + random.below(8)).collect();
    let counts: Counts = [many(), many()];
    let drafts = [0, 1].map(|sheet| sheet_with(random, locations[sheet], &counts[sheet]));
    bytes(thinned(random, drafts))
}

/// Two course sheets, at times the same one.
fn course(random: &mut Random) -> Sheets {
    [0; 2].map(|_| random.pick(&[A, B, C, D, E]).to_vec())
}

/// Two sheets with as many transitions of each action as the counts say, and with
/// enough locations for them, whose numbers are as wanted.
fn counted(random: &mut Random, counts: &Counts, wanted: fn([u8; 2]) -> bool) -> [Draft; 2] {
    let least = counts.each_ref().map(|counts| least_locations(counts));
    let most = MAX_LOCATIONS as u8;
    let mut drawn = (0..).map(|_| least.map(|least| random.byte(least, most)));
    let locations = drawn.find(|pair| wanted(*pair));
    let locations = locations.expect("some pair of locations is wanted");
    [0, 1].map(|sheet| sheet_with(random, locations[sheet], &counts[sheet]))
}

fn joined_locations([one, other]: [u8; 2]) -> usize {
    usize::from(one) * usize::from(other)
}

fn is_few(locations: [u8; 2]) -> bool {
    joined_locations(locations) <= MAX_LOCATIONS
}

fn is_full(locations: [u8; 2]) -> bool {
    joined_locations(locations) == MAX_LOCATIONS
}

fn is_many(locations: [u8; 2]) -> bool {
    !is_few(locations)
}

/// Products of 16 locations, and of 64 transitions or a few less.
fn largest(random: &mut Random) -> Sheets {
    let total = MAX_TRANSITIONS - random.pick(&[0, 0, 0, 1, 2, 7, 30]);
    let counts = counts(random, total);
    bytes(counted(random, &counts, is_full))
}

/// Products of 60 to 68 transitions.
fn near_64_rules(random: &mut Random) -> Sheets {
    let total = random.pick(&[60, 62, 63, 63, 64, 64, 64, 65, 65, 66, 68]);
    let counts = counts(random, total);
    bytes(counted(random, &counts, is_few))
}

/// Counts for products of more than 64 transitions, at times so many that a byte
/// would take them for fewer.
fn too_many(random: &mut Random) -> Counts {
    let few = random.below(MAX_TRANSITIONS);
    let totals = [65, 65, 66, 70, 128, 65 + few, 256, 256 + few];
    let total = random.pick(&totals);
    match random.below(12) {
        0 => [vec![MAX_TRANSITIONS], vec![MAX_TRANSITIONS]],
        _ => counts(random, total),
    }
}

fn too_many_rules(random: &mut Random) -> Sheets {
    let counts = too_many(random);
    bytes(counted(random, &counts, is_few))
}

/// Products of 18 locations and more, up to 256, and of at most 64 transitions.
fn many_locations(random: &mut Random) -> Sheets {
    let total = random.below(MAX_TRANSITIONS + 1);
    let counts = counts(random, total);
    let wanted = random.pick(&[
        is_many,
        |pair| joined_locations(pair) == MAX_LOCATIONS + 2,
        |pair| joined_locations(pair) == 256,
        |pair| is_many(pair) && joined_locations(pair) <= 24,
    ] as &[fn([u8; 2]) -> bool]);
    bytes(counted(random, &counts, wanted))
}

/// Gives a sheet a second clock, and at times bounds and resets of it.
fn with_second_clock(random: &mut Random, draft: &mut Draft) {
    draft.clocks = 2;
    for rule in draft.outgoing.iter_mut().flatten() {
        if random.chance(40) {
            rule[2] |= 2;
        }
        if random.chance(40) {
            rule[5] = random.byte(0, MAX_BOUND);
        }
    }
}

/// A sheet with two clocks, or both, and little else that is wrong.
fn two_clocks(random: &mut Random) -> Sheets {
    let total = random.below(MAX_TRANSITIONS + 3);
    let counts = counts(random, total);
    let mut drafts = counted(random, &counts, is_few);
    for which in random.pick(&[&[0][..], &[1], &[0, 1]]) {
        with_second_clock(random, &mut drafts[*which]);
    }
    bytes(drafts)
}

/// Raises the number of actions of one sheet.
fn with_more_actions(random: &mut Random, drafts: &mut [Draft; 2]) {
    let draft = &mut drafts[random.below(2)];
    let most = MAX_ACTIONS as u8;
    let next = draft.actions + 1;
    if next <= most {
        let any = random.byte(next, most);
        draft.actions = random.pick(&[next, next, any, most]);
    } else {
        // The largest number is there already: the last action goes.
        draft.actions -= 1;
        for rules in &mut draft.outgoing {
            rules.retain(|rule| rule[0] < draft.actions);
        }
    }
}

/// Numbers of actions that differ, and little else that is wrong.
fn other_commands(random: &mut Random) -> Sheets {
    let total = random.below(MAX_TRANSITIONS + 3);
    let counts = counts(random, total);
    let mut drafts = counted(random, &counts, is_few);
    with_more_actions(random, &mut drafts);
    bytes(drafts)
}

/// Two sheets that load, with two or more of: numbers of actions that differ, two
/// clocks, too many locations, too many transitions.
fn later_drafts(random: &mut Random) -> [Draft; 2] {
    let wanted = random.pick(&[3, 5, 6, 7, 9, 10, 11, 12, 13, 14, 15]);
    let has = |bit: u8| wanted >> bit & 1 == 1;
    let few = random.below(MAX_TRANSITIONS);
    let counts = match has(0) {
        true => too_many(random),
        false => counts(random, few),
    };
    let locations = if has(1) { is_many } else { is_few };
    let mut drafts = counted(random, &counts, locations);
    if has(2) {
        let which = random.below(2);
        with_second_clock(random, &mut drafts[which]);
    }
    if has(3) {
        with_more_actions(random, &mut drafts);
    }
    drafts
}

fn later_reasons(random: &mut Random) -> Sheets {
    bytes(later_drafts(random))
}

/// The reasons against a sheet alone.
const OWN: [Refusal; 6] = [
    Refusal::I1,
    Refusal::I2,
    Refusal::I3,
    Refusal::I4,
    Refusal::I5,
    Refusal::I6,
];

/// A sheet that is refused for one of its own reasons, each as likely as another.
fn refused(random: &mut Random) -> Vec<u8> {
    let wanted = random.pick(&OWN);
    let mut drawn = (0..).map(|_| {
        let draft = any_draft(random);
        damaged(random, draft)
    });
    let refused = drawn.find(|bytes| sheet::read(bytes).err() == Some(wanted));
    refused.expect("damage brings every reason")
}

/// A middling sheet, with one clock or two.
fn any_draft(random: &mut Random) -> Draft {
    let clocks = random.byte(1, 2);
    let profile = profile(random, clocks);
    draw(random, &profile)
}

/// A refused sheet before one with which it could mostly not be joined either.
fn first_refused(random: &mut Random) -> Sheets {
    let second = any_draft(random).bytes();
    [refused(random), second]
}

fn second_refused(random: &mut Random) -> Sheets {
    let first = any_draft(random).bytes();
    [first, refused(random)]
}

fn both_refused(random: &mut Random) -> Sheets {
    [0; 2].map(|_| refused(random))
}

/// Two small sheets, of which one has a field next to an edge of its range.
fn edge_sheets(random: &mut Random) -> Sheets {
    let actions = random.byte(1, 3);
    let locations = [random.byte(1, 4), random.byte(1, 4)];
    let drafts = locations.map(|count| draw_sheet(random, count, actions));
    let [first, second] = thinned(random, drafts);
    if random.chance(50) {
        [at_an_edge(random, first), second.bytes()]
    } else {
        [first.bytes(), at_an_edge(random, second)]
    }
}

/// An output of another length, whatever the sheets are.
fn other_output(random: &mut Random) -> Case {
    let others = [
        small,
        matching,
        largest,
        near_64_rules,
        later_reasons,
        first_refused,
        second_refused,
        both_refused,
    ] as [fn(&mut Random) -> Sheets; 8];
    let others = random.pick(&others);
    let sheets = others(random);
    let lengths = [
        0,
        1,
        6,
        sheets[0].len(),
        sheets[1].len(),
        OUTPUT - 1,
        OUTPUT - 1,
        OUTPUT + 1,
        OUTPUT + 1,
        2 * OUTPUT,
        random.below(OUTPUT),
        // In one byte these are the length that is wanted.
        OUTPUT - 512,
        OUTPUT + 256,
    ];
    let mut drawn = (0..).map(|_| random.pick(&lengths));
    let length = drawn.find(|length| *length != OUTPUT);
    let output = any_bytes(random, length.expect("most lengths are others"));
    Case { sheets, output }
}

/// Random bytes for one sheet or both, at times with counts that fit.
fn any_sheets(random: &mut Random) -> Sheets {
    let mut sheets = small(random);
    let places = random.pick(&[&[0][..], &[1], &[0, 1]]);
    for place in places {
        let length = random.pick(&[0, 1, 5, 6, 10, 30, 100, 518, 519]);
        let mut bytes = any_bytes(random, length);
        let fitting = [random.byte(1, 3), random.byte(1, 2), 3, 0, 1, 0];
        for (byte, value) in bytes.iter_mut().zip(fitting) {
            if random.chance(85) {
                *byte = value;
            }
        }
        sheets[*place] = bytes;
    }
    sheets
}
