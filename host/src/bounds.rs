//! The bounds of sheets: what random inputs must show of them.

use crate::desk;
use crate::generate::EARLIER_MOST;
use crate::limits::MAX_BOUND;
use crate::loading::Loading;
use crate::refusal::Refusal;
use crate::sheet::{self, Automaton, Interval, HEADER, PAIR, RULE};
use crate::tally::Tally;

/// The name under which sheets with a large bound count.
fn large() -> String {
    let first = EARLIER_MOST + 1;
    format!("sheet loaded, with a bound of {first} to {MAX_BOUND}")
}

/// The name under which sheets count that are refused for the next bound alone.
fn too_large() -> String {
    let next = MAX_BOUND + 1;
    format!("sheet refused I-5, for a bound of {next}")
}

/// Counts what the sheet of an input shows.
pub fn count(tally: &mut Tally, loading: Loading, input: &[u8]) {
    let split = |(date, rest)| desk::split(rest).map(|(sheet, _)| (sheet, date));
    let Some((bytes, date)) = loading.split(input).and_then(split) else {
        return;
    };
    match sheet::load(bytes, date) {
        Ok(automaton) if has_large(&automaton) => tally.note(&large()),
        Err(Refusal::I5) if fits_lowered(bytes) => tally.note(&too_large()),
        _ => {}
    }
}

/// Whether some bound is larger than bounds were before.
fn has_large(automaton: &Automaton) -> bool {
    let is_large = |guard: &Interval| {
        let high = guard.high.unwrap_or_default();
        guard.low.max(high) > EARLIER_MOST
    };
    let mut rules = automaton.outgoing.iter().flatten();
    rules.any(|rule| rule.guards.iter().any(is_large))
}

/// Whether a sheet that I-5 refuses is not refused so with the largest bound for
/// the next one.
fn fits_lowered(sheet: &[u8]) -> bool {
    let mut lowered = sheet.to_vec();
    let rules = HEADER + PAIR * usize::from(sheet[0]);
    for rule in lowered[rules..].chunks_exact_mut(RULE) {
        for bound in &mut rule[3..] {
            if *bound == MAX_BOUND + 1 {
                *bound = MAX_BOUND;
            }
        }
    }
    sheet::read(&lowered).err() != Some(Refusal::I5)
}

/// The names of what is needed and never came.
pub fn missing(tally: &Tally) -> Vec<String> {
    let never = |name: &String| tally.count(name) == 0;
    [large(), too_large()].into_iter().filter(never).collect()
}
