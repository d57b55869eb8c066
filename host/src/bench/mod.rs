//! A benchmark: desk inputs, and what three programs need for them. Times are
//! compared within one run only.

mod course;
pub mod heaviest;
mod held;
mod instructions;
pub mod loading;
mod measure;
mod mixed;
mod report;
mod script;
mod short;
mod stored;

pub use instructions::Counter;
pub use measure::{typical, Difference, Figures, Folder, Measured, Programs, Stop};
pub use report::report;

use crate::desk::{CALL, COLLECTION};
use course::single;
use heaviest::{batches_late, batches_many, dropped, held_too_many, no_room_late, no_room_many};
use heaviest::{planned_late, planned_many, planned_waits, planned_worst};
use held::{one_clock as long_one, two_clocks as long_two};
use std::path::Path;
use std::{fs, io};

/// A desk input, and the part of it that is not counted.
#[derive(Clone, Debug, PartialEq, Eq)]
pub struct Input {
    /// The part whose cost is subtracted; mostly the beginning.
    pub base: Vec<u8>,
    /// All bytes.
    pub whole: Vec<u8>,
    /// How many calls, or loads, come after the base.
    pub count: usize,
}

impl Input {
    /// The base and at most so many calls.
    pub fn part(&self, few: usize) -> &[u8] {
        if few < self.count {
            &self.whole[..self.base.len() + CALL * few]
        } else {
            &self.whole
        }
    }

    /// The same with the offers counted and the collections subtracted. It is
    /// given to all programs whole: the base is no beginning of it.
    fn offers(self) -> Input {
        let (front, calls) = self.whole.split_at(self.base.len());
        let calls = calls.chunks_exact(CALL);
        let (collections, offers): (Vec<_>, Vec<_>) = calls.partition(|call| call[0] == COLLECTION);
        Input {
            base: [front, &collections.concat()].concat(),
            count: offers.len(),
            whole: self.whole,
        }
    }
}

/// A kind of inputs that share a row of the table.
pub struct Kind {
    pub name: &'static str,
    /// Calls to be timed, over all inputs.
    pub calls: usize,
    /// Calls of an input that the reference is given at most. It has fewer
    /// where it is much slower; the calls of such a kind are all alike.
    pub few: usize,
    /// Calls whose instructions are counted, over all inputs.
    pub short: usize,
    /// How often each program is timed.
    pub rounds: usize,
    make: fn(usize) -> Vec<Input>,
}

impl Kind {
    /// Inputs with so many calls in all, or a few more.
    pub fn inputs(&self, calls: usize) -> Vec<Input> {
        (self.make)(calls)
    }
}

/// No limit for the reference.
const ALL: usize = usize::MAX;

/// A kind from its name, the calls to be timed, for the reference at most, and
/// to be counted, the rounds, and the function that makes its inputs.
const fn kind(name: &'static str, numbers: [usize; 4], make: fn(usize) -> Vec<Input>) -> Kind {
    let [calls, few, short, rounds] = numbers;
    Kind {
        name,
        calls,
        few,
        short,
        rounds,
        make,
    }
}

/// The kinds whose times are per call. Of the heaviest few are enough.
pub const KINDS: &[Kind] = &[
    kind("sheet A, single commands", [80_000, ALL, 2_000, 30], single),
    kind("one clock", [40_000, ALL, 1_600, 30], mixed::one_clock),
    kind("two clocks", [40_000, ALL, 1_600, 30], mixed::two_clocks),
    kind(
        "long held lists, one clock",
        [40_000, ALL, 800, 20],
        long_one,
    ),
    kind(
        "long held lists, two clocks",
        [20_000, ALL, 800, 20],
        long_two,
    ),
    kind("heaviest, many states", [680, ALL, 34, 6], batches_many),
    kind("heaviest, late correction", [680, 34, 34, 6], batches_late),
];

/// The kinds whose times are per offer, the collections not counted.
pub const SHORT: &[Kind] = &[kind(
    "two clocks, 2 to 5 commands",
    [40_000, ALL, 1_600, 30],
    short::two_clocks,
)];

/// The kinds that repeat one offer each, so often that it takes longer than the
/// offers before it, whose noise it would be lost in otherwise. Those that get
/// dates take so long that once is enough.
pub const WORST: &[Kind] = &[
    kind("many states, S-4", [200, ALL, 4, 6], held_too_many),
    kind("many states, dropped", [200, ALL, 4, 6], dropped),
    kind("many states, S-3", [200, 40, 2, 6], no_room_many),
    kind("late correction, S-3", [200, 2, 1, 6], no_room_late),
    kind("many states, scheduled", [1, ALL, 1, 30], planned_many),
    kind("late correction, scheduled", [1, ALL, 1, 6], planned_late),
    kind("worst plan found", [1, ALL, 1, 30], planned_worst),
    kind("worst waits found", [1, ALL, 1, 6], planned_waits),
];

/// The kinds that show what the lamp adds to a call.
pub const STORED: &[Kind] = &[
    kind("refused, I-7", [4_000, ALL, 100, 30], stored::refused),
    kind("lit, offers", [4_000, ALL, 100, 30], stored::offered_lit),
    kind(
        "lit, collections",
        [4_000, ALL, 100, 30],
        stored::collected_lit,
    ),
    kind(
        "collections, same first date",
        [4_000, ALL, 100, 30],
        stored::collected,
    ),
    kind(
        "collections, each a tick later",
        [200, ALL, 20, 6],
        stored::collected_later,
    ),
    kind("held, 1 to 16", [16, ALL, 16, 30], stored::held),
];

/// The kinds whose times are per load.
pub const LOADING: &[Kind] = &[
    kind("largest sheets", [5, ALL, 5, 600], loading::largest),
    kind(
        "largest sheets, first call",
        [5, ALL, 5, 600],
        loading::largest_called,
    ),
    kind("long way, worst known", [1, ALL, 1, 600], loading::longest),
    kind(
        "long way, first call",
        [1, ALL, 1, 600],
        loading::longest_called,
    ),
];

/// Writes the inputs of all kinds to a folder, with the calls whose instructions
/// are counted.
pub fn write_inputs(folder: &Path) -> io::Result<()> {
    for kind in KINDS
        .iter()
        .chain(SHORT)
        .chain(WORST)
        .chain(STORED)
        .chain(LOADING)
    {
        for (number, input) in kind.inputs(kind.short).iter().enumerate() {
            let name = format!("{}, {number}", kind.name);
            fs::write(folder.join(name), &input.whole)?;
        }
    }
    Ok(())
}
