//! Three inputs with more offers than there are numbers. What becomes of each is
//! known from the sheet, so that no monitor has to run along.

use super::calls::push_call;
use super::draft::Draft;
use super::with_length;
use crate::course::B;
use crate::desk::COLLECTION;
use crate::limits::{LAST_DATE, MAX_NUMBERED, MAX_PENDING, MAX_SCHEDULED};
use crate::random::Random;
use crate::sheet::{RULE, UNBOUNDED};

/// Starts a list at most so many ticks after `SINGLE`, or lengthens it. The list
/// is held until it is closed.
const OPEN: u8 = 0;
const SOON: u8 = 3;
/// Closes a list at once.
const CLOSE: u8 = 1;
/// Is scheduled alone while no list is held.
const SINGLE: u8 = 2;
/// Closes a list so many ticks after its start.
const CLOSE_LATE: u8 = 3;
const TICKS: u8 = 5;
/// Has no transition.
const NEVER: u8 = 4;
/// Is no action of either sheet.
const BEYOND: u8 = 5;

/// How many offers of a round get a number.
const ROUND: u32 = 7;
/// How many the last part has at least: what fills the lists, and one more.
const LAST: u32 = MAX_SCHEDULED as u32 + 1;
/// How many dropped offers come between two refusals.
const BETWEEN: u32 = 1000;

/// An input that grows, and how many of its offers get a number.
struct Tape {
    input: Vec<u8>,
    date: u32,
    numbered: u32,
}

impl Tape {
    fn new(sheet: &[u8]) -> Self {
        Tape {
            input: with_length(sheet),
            date: 0,
            numbered: 0,
        }
    }

    /// Adds an offer that gets a number.
    fn offer(&mut self, action: u8) {
        self.refused(action);
        self.numbered += 1;
    }

    /// Adds an offer that is refused for the state.
    fn refused(&mut self, action: u8) {
        push_call(&mut self.input, action, self.date);
    }

    /// The same at the last date, which does not become the box's.
    fn refused_later(&mut self, action: u8) {
        push_call(&mut self.input, action, LAST_DATE);
    }

    /// Adds an offer or a collection that is refused for its action or date.
    fn stray(&mut self, sort: u32) {
        let (past, late) = (self.date - 1, LAST_DATE + 1);
        let (first, date) = match sort % 5 {
            0 => (BEYOND, self.date),
            1 => (OPEN, late),
            2 => (OPEN, past),
            3 => (COLLECTION, late),
            _ => (COLLECTION, past),
        };
        push_call(&mut self.input, first, date);
    }

    /// Adds one of each that are refused so.
    fn strays(&mut self) {
        (0..5).for_each(|sort| self.stray(sort));
    }

    /// Adds offers that are dropped, by turns, until there are so many numbers.
    fn drop_until(&mut self, numbered: u32, actions: [u8; 2]) {
        while self.numbered < numbered {
            if self.numbered.is_multiple_of(BETWEEN) {
                self.stray(self.numbered / BETWEEN);
            }
            self.offer(actions[self.numbered as usize % 2]);
        }
    }

    /// Adds so many collections.
    fn collect(&mut self, times: usize) {
        for _ in 0..times {
            push_call(&mut self.input, COLLECTION, self.date);
        }
    }
}

/// The numbers go to offers that are scheduled, held and dropped.
pub fn used_up(_: &mut Random) -> Vec<u8> {
    let mut tape = Tape::new(&lists_and_singles().bytes());
    let rounds = (MAX_NUMBERED - LAST) / ROUND;
    (0..rounds).for_each(|index| round(&mut tape, index));
    last_numbers(&mut tape);
    after_last(&mut tape);
    tape.input
}

/// One accepting location, and one in which a list is held.
fn lists_and_singles() -> Draft {
    let rule = |action, target, resets, low, high| -> [u8; RULE] {
        [action, target, resets, low, high, 0, UNBOUNDED]
    };
    let home = vec![rule(SINGLE, 0, 1, 0, UNBOUNDED), rule(OPEN, 1, 1, 0, SOON)];
    let list = vec![
        rule(OPEN, 1, 0, 0, UNBOUNDED),
        rule(CLOSE, 0, 0, 0, UNBOUNDED),
        rule(CLOSE_LATE, 0, 0, TICKS, UNBOUNDED),
    ];
    Draft {
        locations: 2,
        clocks: 1,
        actions: BEYOND,
        initial: 0,
        accepting: 1,
        outgoing: vec![home, list],
    }
}

/// Two are scheduled at once, two held and three dropped; one call is refused.
fn round(tape: &mut Tape, index: u32) {
    tape.date += 1;
    tape.offer(SINGLE);
    tape.offer(OPEN);
    tape.offer(NEVER);
    tape.stray(index);
    tape.date += 1;
    tape.offer(OPEN);
    tape.date += 1;
    tape.offer(CLOSE_LATE);
    // There is no list to be closed.
    tape.offer(CLOSE);
    tape.date += u32::from(TICKS);
    tape.offer(NEVER);
    tape.collect(4);
}

/// Fills the lists a tick too late for `CLOSE_LATE`, so that S-2, S-3 and S-4
/// come before the last number. That is of an offer which leaves the lists.
fn last_numbers(tape: &mut Tape) {
    tape.date = LAST_DATE - u32::from(TICKS) + 1;
    (MAX_PENDING..MAX_SCHEDULED).for_each(|_| tape.offer(SINGLE));
    (0..MAX_PENDING).for_each(|_| tape.offer(OPEN));
    tape.drop_until(MAX_NUMBERED - 1, [NEVER, SINGLE]);
    refused_for_lists(tape);
    tape.offer(NEVER);
}

/// Too late, no room for the batch, and one too many to be held.
fn refused_for_lists(tape: &mut Tape) {
    for action in [CLOSE_LATE, CLOSE, OPEN] {
        tape.refused(action);
    }
}

/// The same offers again, others, and collections.
fn after_last(tape: &mut Tape) {
    refused_for_lists(tape);
    tape.strays();
    tape.refused_later(NEVER);
    tape.collect(MAX_SCHEDULED - MAX_PENDING + 1);
    // Now there would be room.
    tape.refused(CLOSE);
    // Now it is too late for the list, and the lamp is lit.
    tape.date = LAST_DATE;
    tape.collect(1);
    tape.refused(CLOSE);
}

/// Most numbers go to offers that are dropped, the last two to a list.
pub fn used_up_played(_: &mut Random) -> Vec<u8> {
    let mut tape = Tape::new(&lists_and_singles().bytes());
    tape.date = 1;
    tape.drop_until(MAX_NUMBERED - 2, [NEVER, CLOSE]);
    tape.offer(OPEN);
    tape.date = 2;
    tape.offer(CLOSE);
    refused_and_played(&mut tape);
    tape.input
}

/// Most numbers go to offers that a lit box drops, the first two to a list.
pub fn used_up_lit(_: &mut Random) -> Vec<u8> {
    let mut tape = Tape::new(B);
    tape.date = 3;
    tape.offer(0);
    tape.date = 5;
    tape.offer(1);
    tape.date = 15;
    tape.drop_until(MAX_NUMBERED, [0, 1]);
    refused_and_played(&mut tape);
    tape.input
}

/// Refused calls, and the collections of a list of two.
fn refused_and_played(tape: &mut Tape) {
    tape.refused(0);
    tape.strays();
    tape.refused_later(1);
    tape.collect(1);
    tape.refused(1);
    tape.collect(2);
    tape.refused(0);
}
