//! The rules of a text.

use super::scope::Scope;
use super::words::Words;
use crate::sheet::{MAX_CLOCKS, RULE, UNBOUNDED};

/// A transition with the line it was read from.
#[derive(Clone, Copy, Debug)]
pub struct Edge {
    pub line: usize,
    pub source: u8,
    pub rule: [u8; RULE],
}

/// A low and a high.
type Guard = [u8; 2];

/// The guard that all readings satisfy.
pub const ALWAYS: Guard = [0, UNBOUNDED];

impl Edge {
    /// Reads a rule after its first word.
    pub fn read(line: usize, words: &mut Words, scope: &Scope) -> Result<Self, String> {
        let source = scope.source(words.number("a location")?)?;
        words.expect("->")?;
        let target = scope.location(words.number("a location")?)?;
        words.expect("on")?;
        let action = scope.action(words.number("a command")?)?;
        let mut others = "`when`, `reset` or ";
        let mut guards = [ALWAYS; MAX_CLOCKS];
        if words.take("when") {
            guards = read_guards(words, scope)?;
            others = "`and`, `reset` or ";
        }
        let mut resets = 0;
        if words.take("reset") {
            resets = read_resets(words, scope)?;
            others = "`and` or ";
        }
        words.end(others)?;
        let [[low_1, high_1], [low_2, high_2]] = guards;
        let rule = [action, target, resets, low_1, high_1, low_2, high_2];
        Ok(Edge { line, source, rule })
    }

    /// The readings at which this rule and another apply to one command in
    /// one location, if there are any.
    fn shared_readings(&self, other: &Edge) -> Option<[u8; MAX_CLOCKS]> {
        let [action, _, _, low_1, high_1, low_2, high_2] = self.rule;
        let rule = other.rule;
        // If any readings satisfy both, the larger lows do.
        let readings = [low_1.max(rule[3]), low_2.max(rule[5])];
        let highs = [high_1.min(rule[4]), high_2.min(rule[6])];
        let both = self.source == other.source
            && action == rule[0]
            && readings[0] <= highs[0]
            && readings[1] <= highs[1];
        both.then_some(readings)
    }

    /// The message against a rule that overlaps this earlier one.
    pub fn overlap(&self, later: &Edge, clocks: Option<u8>) -> Option<String> {
        let [first, second] = self.shared_readings(later)?;
        let (line, source, action) = (self.line, self.source, self.rule[0]);
        let second = match clocks {
            Some(1) => String::new(),
            _ => format!(" and clock 2 reads {second}"),
        };
        Some(format!(
            "this rule overlaps that of line {line}; in location {source} command {action} \
             finds both when clock 1 reads {first}{second}"
        ))
    }
}

/// The bounds of each clock after `when`.
fn read_guards(words: &mut Words, scope: &Scope) -> Result<[Guard; MAX_CLOCKS], String> {
    let mut guards = [None; MAX_CLOCKS];
    loop {
        words.expect("clock")?;
        let clock = scope.guarded_clock(words.number("a clock")?)?;
        let guard = &mut guards[usize::from(clock) - 1];
        if guard.is_some() {
            return Err(format!("clock {clock} is named twice; once is enough"));
        }
        *guard = Some(read_guard(words, scope)?);
        if !words.take("and") {
            return Ok(guards.map(|guard| guard.unwrap_or(ALWAYS)));
        }
    }
}

/// The bounds of one clock.
fn read_guard(words: &mut Words, scope: &Scope) -> Result<Guard, String> {
    let [mut low, mut high] = ALWAYS;
    let has_low = words.take("from");
    if has_low {
        low = scope.low(words.number("a bound")?)?;
    }
    if words.take("to") {
        high = scope.high(words.number("a bound")?)?;
    } else if !has_low {
        return Err(words.misplaced("`from` or `to`"));
    }
    scope.guard(low, high)
}

/// The reset set after `reset`.
fn read_resets(words: &mut Words, scope: &Scope) -> Result<u8, String> {
    let mut resets = 0;
    for number in words.numbers("a clock")? {
        resets |= 1 << (scope.reset_clock(number)? - 1);
    }
    Ok(resets)
}
