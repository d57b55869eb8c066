//! The loading date: where an input has it, and what inputs with one must show.

use crate::desk::{self, CALL};
use crate::limits::LAST_DATE;
use crate::tally::Tally;
use std::ffi::OsStr;

/// When the box is loaded, and so how a desk input begins.
#[derive(Clone, Copy, Debug, PartialEq, Eq)]
pub enum Loading {
    /// At date 0. The input begins with the sheet's length.
    AtZero,
    /// At the date in the first four bytes, low byte first.
    AtDate,
}

/// The flag for inputs that begin with a loading date.
const FLAG: &str = "--at";

impl Loading {
    /// What the first of some arguments says, and the arguments after that.
    pub fn parse<W: AsRef<OsStr>>(words: &[W]) -> (Self, &[W]) {
        match words {
            [flag, rest @ ..] if flag.as_ref() == FLAG => (Loading::AtDate, rest),
            _ => (Loading::AtZero, words),
        }
    }

    /// The program that reads such inputs.
    pub fn program(self) -> &'static str {
        match self {
            Loading::AtZero => "desk",
            Loading::AtDate => "desk_at",
        }
    }

    /// How many bytes of an input are its loading date.
    pub fn date_bytes(self) -> usize {
        match self {
            Loading::AtZero => 0,
            Loading::AtDate => size_of::<u32>(),
        }
    }

    /// The loading date of an input, and what comes after it; `None` if it has
    /// too few bytes.
    pub fn split(self, input: &[u8]) -> Option<(u32, &[u8])> {
        match self {
            Loading::AtZero => Some((0, input)),
            Loading::AtDate => {
                let (date, rest) = input.split_first_chunk()?;
                Some((u32::from_le_bytes(*date), rest))
            }
        }
    }
}

/// The names under which inputs with a loading date count.
const CUT: &str = "loading date cut short";
const ZERO: &str = "loading date 0";
const BELOW: &str = "loading date from 1 to below the last date";
const LAST: &str = "loading date equal to the last date";
const ABOVE: &str = "loading date above the last date";
const OWN: &str = "loading date above the last date, refused for the sheet";
const TAKEN: &str = "loading date equal to the last date, a call not refused";
const BEFORE: &str = "first call before the loading date, refused S-1";
const TICK: &str = "first call a tick before the loading date, refused S-1";
const THERE: &str = "first call at the loading date";

/// What must come among enough inputs with a loading date. The last three are
/// reasons against a load and against calls.
const NEEDED: [&str; 13] = [
    CUT,
    ZERO,
    BELOW,
    LAST,
    ABOVE,
    OWN,
    TAKEN,
    BEFORE,
    TICK,
    THERE,
    "sheet refused I-8",
    "refused I-8",
    "refused S-2",
];

/// Counts what an input with a loading date and its lines show.
pub fn count(tally: &mut Tally, input: &[u8], lines: &str) {
    let Some((loaded, rest)) = Loading::AtDate.split(input) else {
        tally.note(CUT);
        return;
    };
    tally.note(match loaded {
        0 => ZERO,
        LAST_DATE => LAST,
        _ if loaded < LAST_DATE => BELOW,
        _ => ABOVE,
    });
    if lines.starts_with("sheet refused ") {
        if loaded > LAST_DATE && lines != "sheet refused I-8\n" {
            tally.note(OWN);
        }
        return;
    }
    let taken = |line: &str| line.contains(" lamp ") && !line.contains(" refused ");
    if loaded == LAST_DATE && lines.lines().any(taken) {
        tally.note(TAKEN);
    }
    count_first_call(tally, loaded, rest, lines);
}

/// Counts where the first call on a box lies.
fn count_first_call(tally: &mut Tally, loaded: u32, rest: &[u8], lines: &str) {
    let calls = desk::split(rest).map_or(&[][..], |(_, calls)| calls);
    let Some(first) = calls.chunks_exact(CALL).next() else {
        return;
    };
    let date = desk::date_of(first);
    // The sheet has the first line.
    let line = lines.lines().nth(1).unwrap_or_default();
    if date == loaded {
        tally.note(THERE);
    } else if date < loaded && line.starts_with("1 refused S-1 ") {
        tally.note(BEFORE);
        if date == loaded - 1 {
            tally.note(TICK);
        }
    }
}

/// The names of what is needed and never came.
pub fn missing(tally: &Tally) -> Vec<&'static str> {
    let never = |name: &&str| tally.count(name) == 0;
    NEEDED.into_iter().filter(never).collect()
}
