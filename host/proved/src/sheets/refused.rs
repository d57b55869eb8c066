//! The messages for sheets that the proved library does not join.

use crate::library::Proved;
use host::limits::MAX_TRANSITIONS;
use host::product::{clock_count, location_count, rule_count, Joiner};
use host::refusal::Refusal;
use host::sheet::{self, Automaton, HEADER, LONGEST, MAX_CLOCKS, MAX_LOCATIONS};

/// Two sheets and the names of their files.
pub struct Pair<'a> {
    pub names: [&'a str; 2],
    pub sheets: [&'a [u8]; 2],
}

impl Pair<'_> {
    /// The message for a reason: the sheet that it is about, or the numbers of both.
    pub fn message(&self, reason: Refusal) -> String {
        let loaded = self.sheets.map(|bytes| sheet::read(bytes).ok());
        match (reason, loaded) {
            (Refusal::I12 | Refusal::I13 | Refusal::I14, [Some(first), Some(second)]) => {
                let numbers = numbers(reason, &first, &second);
                format!("{reason}: {numbers}")
            }
            _ => self.own(reason),
        }
    }

    /// The message for a reason of one sheet alone: the first's come first.
    fn own(&self, reason: Refusal) -> String {
        let place = usize::from(Proved.check(self.sheets[0]) == 0);
        let which = ["first", "second"][place];
        let (name, words) = (self.names[place], words(reason, self.sheets[place].len()));
        format!("{name}: the {which} sheet is refused: {reason}: {words}")
    }
}

/// What a sheet of so many bytes is refused for.
fn words(reason: Refusal, length: usize) -> String {
    match reason {
        Refusal::I1 => format!("it has {length} bytes; {HEADER} to {LONGEST} are expected"),
        Refusal::I2 => "its number of locations, clocks or commands is out of range".into(),
        Refusal::I3 => "its initial location or an accepting one is not there".into(),
        Refusal::I4 => {
            format!("its rules are not placed as they must be, or are more than {MAX_TRANSITIONS}")
        }
        Refusal::I5 => {
            "a number of a rule is out of range, a low is above its high, or a rule is about a clock that the sheet does not have".into()
        }
        Refusal::I6 => "two rules of one location apply to one command at the same readings".into(),
        _ => "this is no reason against one sheet".into(),
    }
}

/// Why two sheets that load are not joined: I-12, I-13 or I-14.
fn numbers(reason: Refusal, first: &Automaton, second: &Automaton) -> String {
    let clocks = clock_count(first, second);
    match reason {
        Refusal::I12 => {
            let (one, other) = (first.actions, second.actions);
            format!("numbers of commands differ: {one} in the first sheet, {other} in the second")
        }
        Refusal::I13 if clocks > MAX_CLOCKS => {
            format!("the sheets have {clocks} clocks in all, above {MAX_CLOCKS}")
        }
        Refusal::I13 => {
            let (one, other) = (first.locations, second.locations);
            let all = location_count(first, second);
            format!("the joined sheet would have {one} times {other} locations, which is {all}, above {MAX_LOCATIONS}")
        }
        _ => {
            let rules = rule_count(first, second);
            format!("the joined sheet would have {rules} rules, above {MAX_TRANSITIONS}")
        }
    }
}
