//! The header of a text: one line for each count, the initial location and
//! the accepting locations.

use super::scope::Scope;
use super::words::Words;
use super::{Checks, Mistake};
use crate::generate::Draft;
use crate::sheet::{MAX_ACTIONS, MAX_CLOCKS, MAX_LOCATIONS};

/// The first words of the header's lines.
pub const NAMES: [&str; 5] = ["locations", "clocks", "commands", "initial", "accepting"];

/// A line of the header, with its value unless that is wrong.
#[derive(Clone, Debug)]
struct Field<T> {
    line: Option<usize>,
    value: Option<T>,
}

/// The header as far as it was read.
#[derive(Clone, Debug, Default)]
pub struct Header {
    locations: Field<u8>,
    clocks: Field<u8>,
    actions: Field<u8>,
    initial: Field<u64>,
    accepting: Field<Vec<u64>>,
}

impl<T> Default for Field<T> {
    fn default() -> Self {
        let (line, value) = (None, None);
        Field { line, value }
    }
}

impl<T> Field<T> {
    /// Takes the value of a line; there may be one such line.
    fn put(&mut self, name: &str, line: usize, value: Result<T, String>) -> Result<(), String> {
        if let Some(first) = self.line {
            return Err(repeated(name, first));
        }
        self.line = Some(line);
        self.value = Some(value?);
        Ok(())
    }

    /// The value after a check, which may add a mistake.
    fn check<U>(
        &self,
        mistakes: &mut Vec<Mistake>,
        check: impl Fn(&T) -> Result<U, String>,
    ) -> Option<U> {
        let line = self.line?;
        let checked = check(self.value.as_ref()?);
        checked
            .map_err(|message| mistakes.push(Mistake { line, message }))
            .ok()
    }
}

impl Header {
    /// Reads a line that begins with one of the header's names.
    pub fn read(
        &mut self,
        checks: Checks,
        line: usize,
        name: &str,
        words: &mut Words,
    ) -> Result<(), String> {
        let scope = self.scope(checks);
        let mut count = |most| scope.count(name, last_number(words)?, most);
        match name {
            "locations" => self.locations.put(name, line, count(MAX_LOCATIONS)),
            "clocks" => self.clocks.put(name, line, count(MAX_CLOCKS)),
            "commands" => self.actions.put(name, line, count(MAX_ACTIONS)),
            "initial" => self.initial.put(name, line, last_number(words)),
            _ => self.accepting.put(name, line, accepting(words)),
        }
    }

    /// The counts, for the checks of other lines.
    pub fn scope(&self, checks: Checks) -> Scope {
        Scope {
            checks,
            locations: self.locations.value,
            clocks: self.clocks.value,
            actions: self.actions.value,
        }
    }

    /// The names of the lines that are not there.
    pub fn missing(&self) -> Vec<&'static str> {
        let lines = [
            self.locations.line,
            self.clocks.line,
            self.actions.line,
            self.initial.line,
            self.accepting.line,
        ];
        let named = NAMES.into_iter().zip(lines);
        let missing = named.filter(|(_, line)| line.is_none());
        missing.map(|(name, _)| name).collect()
    }

    /// The sheet without rules, if the header has no mistakes. The number of
    /// locations may come late, so the initial and the accepting ones are
    /// checked here.
    pub fn sheet(&self, checks: Checks, mistakes: &mut Vec<Mistake>) -> Option<Draft> {
        let scope = self.scope(checks);
        let initial = self
            .initial
            .check(mistakes, |number| scope.location(*number));
        let accepting = self
            .accepting
            .check(mistakes, |numbers| set(&scope, numbers));
        let locations = self.locations.value?;
        Some(Draft {
            locations,
            clocks: self.clocks.value?,
            actions: self.actions.value?,
            initial: initial?,
            accepting: accepting?,
            outgoing: vec![Vec::new(); usize::from(locations)],
        })
    }
}

/// The message for a line of which there may be one.
pub fn repeated(name: &str, first: usize) -> String {
    format!("`{name}` is repeated; it is in line {first} already")
}

/// The one number of a line.
fn last_number(words: &mut Words) -> Result<u64, String> {
    let number = words.number("a number")?;
    words.end("")?;
    Ok(number)
}

/// The locations of a line `accepting`.
fn accepting(words: &mut Words) -> Result<Vec<u64>, String> {
    if words.take("none") {
        words.end("")?;
        return Ok(Vec::new());
    }
    let numbers = words.numbers("a location or `none`")?;
    words.end("`and` or ")?;
    Ok(numbers)
}

/// The accepting set, with a bit for each location.
fn set(scope: &Scope, numbers: &[u64]) -> Result<u16, String> {
    let mut set = 0;
    for number in numbers {
        set |= 1 << scope.accepting(*number)?;
    }
    Ok(set)
}
