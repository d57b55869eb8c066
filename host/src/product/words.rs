//! Random timed words for two automata and their product, and whether the product
//! takes a word exactly when both do.

use crate::limits::LAST_DATE;
use crate::random::Random;
use crate::runs::{beginning, satisfies, Reached, TimedAction};
use crate::sets::CAP;
use crate::sheet::{Automaton, Transition};
use std::fmt;

/// A run of a box that is loaded at a date.
#[derive(Clone, Debug, PartialEq, Eq)]
pub struct Word {
    pub loaded: u32,
    pub run: Vec<TimedAction>,
}

impl fmt::Display for Word {
    fn fmt(&self, out: &mut fmt::Formatter<'_>) -> fmt::Result {
        let event = |timed: &TimedAction| format!("{} at {}", timed.action, timed.date);
        let events: Vec<String> = self.run.iter().map(event).collect();
        let (loaded, events) = (self.loaded, events.join(", "));
        write!(out, "the word ({events}), loaded at {loaded},")
    }
}

/// Words along each of the automata, and as many at random.
const EACH: usize = 10;

/// Ticks after which every reading is above all bounds.
const LONG: u32 = CAP as u32;

/// Most events of a word.
const MOST: usize = 12;

/// Random words for two automata and their product, the empty one once.
pub fn words(random: &mut Random, sheets: &[Automaton; 2], joined: &Automaton) -> Vec<Word> {
    let mut words = Vec::new();
    for _ in 0..EACH {
        for automaton in sheets.iter().chain([joined]) {
            words.push(along(random, automaton));
        }
        words.push(at_random(random, joined.actions));
    }
    words.retain(|word| !word.run.is_empty());
    let (loaded, run) = (loaded(random), Vec::new());
    words.push(Word { loaded, run });
    words
}

/// Which of two automata take a word.
#[derive(Clone, Copy, Debug, PartialEq, Eq)]
pub enum Taken {
    Both,
    First,
    Second,
    Neither,
}

impl Taken {
    /// Each of them.
    pub const ALL: [Taken; 4] = [Taken::Both, Taken::First, Taken::Second, Taken::Neither];

    /// The name under which such words count.
    pub fn name(self) -> &'static str {
        match self {
            Taken::Both => "words that both sheets take",
            Taken::First => "words that only the first takes",
            Taken::Second => "words that only the second takes",
            Taken::Neither => "words that neither takes",
        }
    }
}

/// Which automata take a word; what is wrong if their product does not take it
/// exactly when both do.
pub fn taken(sheets: &[Automaton; 2], joined: &Automaton, word: &Word) -> Result<Taken, String> {
    let takes = |automaton| satisfies(automaton, word.loaded, &word.run);
    let [first, second] = sheets.each_ref().map(takes);
    let both = takes(joined);
    if both != (first && second) {
        let said = |takes| if takes { "takes it" } else { "does not" };
        let (first, second, both) = (said(first), said(second), said(both));
        return Err(format!(
            "{word} tells them apart: the first sheet {first}, the second {second}, the joined one {both}"
        ));
    }
    Ok(match (first, second) {
        (true, true) => Taken::Both,
        (true, false) => Taken::First,
        (false, true) => Taken::Second,
        (false, false) => Taken::Neither,
    })
}

/// A loading date.
fn loaded(random: &mut Random) -> u32 {
    let soon = random.between(1, LONG);
    let any = random.between(0, LAST_DATE);
    random.pick(&[0, 0, soon, any, LAST_DATE])
}

/// A word that an automaton mostly takes; at times a date or an action is changed.
fn along(random: &mut Random, automaton: &Automaton) -> Word {
    let loaded = loaded(random);
    let mut run = walk(random, automaton, loaded);
    if random.chance(25) {
        change(random, automaton.actions, &mut run);
    }
    Word { loaded, run }
}

/// The first of some walks that ends in an accepting location, if there is one.
fn walk(random: &mut Random, automaton: &Automaton, loaded: u32) -> Vec<TimedAction> {
    let mut run = Vec::new();
    for _ in 0..6 {
        let (walked, accepted) = some_walk(random, automaton, loaded);
        run = walked;
        if accepted > 0 {
            run.truncate(accepted);
            break;
        }
    }
    run
}

/// A run of an automaton, and after how many events it was last accepting.
fn some_walk(random: &mut Random, automaton: &Automaton, loaded: u32) -> (Vec<TimedAction>, usize) {
    let mut reached = beginning(automaton, loaded);
    let (mut run, mut accepted) = (Vec::new(), 0);
    for _ in 0..random.below(MOST + 1) {
        let Some((timed, next)) = step(random, automaton, &reached) else {
            break;
        };
        run.push(timed);
        reached = next;
        if automaton.is_accepting(reached.configuration.location) {
            accepted = run.len();
        }
    }
    (run, accepted)
}

/// An event by which a run goes on, and where it leads, if one of some transitions
/// can still apply.
fn step(
    random: &mut Random,
    automaton: &Automaton,
    reached: &Reached,
) -> Option<(TimedAction, Reached)> {
    let outgoing = &automaton.outgoing[usize::from(reached.configuration.location)];
    for _ in 0..4.min(outgoing.len()) {
        let transition = random.pick(outgoing);
        if let Some(ticks) = ticks(random, &transition, reached) {
            let (action, date) = (transition.action, reached.date + ticks);
            let next = reached.wait_until(date)?.play(automaton, action)?;
            return Some((TimedAction { action, date }, next));
        }
    }
    None
}

/// Ticks after which a transition applies, often the fewest or the most.
fn ticks(random: &mut Random, transition: &Transition, reached: &Reached) -> Option<u32> {
    let (mut fewest, mut most) = (0, None::<u32>);
    let readings = reached.configuration.valuation;
    for (guard, reading) in transition.guards.iter().zip(readings) {
        fewest = fewest.max(u32::from(guard.low).saturating_sub(reading));
        if let Some(high) = guard.high {
            let left = u32::from(high).checked_sub(reading)?;
            most = Some(most.map_or(left, |most| most.min(left)));
        }
    }
    let long = fewest + random.pick(&[0, 1, 5, LONG, 1000]);
    let most = most.unwrap_or(long);
    if fewest > most {
        return None;
    }
    let any = random.between(fewest, most);
    Some(random.pick(&[fewest, fewest, most, most, any]))
}

/// Moves the rest of a run by a tick, or changes an action.
fn change(random: &mut Random, actions: u8, run: &mut [TimedAction]) {
    if run.is_empty() {
        return;
    }
    let at = random.below(run.len());
    match random.below(3) {
        0 => run[at].action = random.byte(0, actions),
        1 => run[at..].iter_mut().for_each(|timed| timed.date += 1),
        _ => {
            let before = |timed: &mut TimedAction| timed.date = timed.date.saturating_sub(1);
            run[at..].iter_mut().for_each(before);
        }
    }
}

/// A word at random.
fn at_random(random: &mut Random, actions: u8) -> Word {
    let loaded = loaded(random);
    let count = random.below(MOST / 2);
    let mut date = loaded;
    let mut next = |_| {
        let short = random.between(0, 5);
        let long = random.between(0, LONG + 5);
        date += random.pick(&[0, 0, 1, short, short, long]);
        let action = random.byte(0, actions - 1);
        TimedAction { action, date }
    };
    let run = (0..count).map(&mut next).collect();
    Word { loaded, run }
}
