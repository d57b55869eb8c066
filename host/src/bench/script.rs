//! Desk inputs that grow call by call, with a monitor that runs along.

use super::Input;
use crate::decide::{can_continue, decide, Decision};
use crate::desk::{CALL, COLLECTION};
use crate::monitor::{Answer, Monitor};
use crate::sheet;

/// A sheet with calls.
pub struct Script {
    input: Vec<u8>,
    /// Where the first call starts in the input.
    start: usize,
    monitor: Monitor,
}

/// Puts the length before a sheet, as the desk program wants it.
pub fn with_length(sheet: &[u8]) -> Vec<u8> {
    let mut input = (sheet.len() as u16).to_le_bytes().to_vec();
    input.extend_from_slice(sheet);
    input
}

fn push_call(input: &mut Vec<u8>, first: u8, date: u32) {
    input.push(first);
    input.extend_from_slice(&date.to_le_bytes());
}

impl Script {
    /// Starts with a sheet that loads.
    pub fn new(bytes: &[u8]) -> Self {
        let automaton = sheet::read(bytes).expect("the sheet loads");
        let input = with_length(bytes);
        Script {
            start: input.len(),
            input,
            monitor: Monitor::new(automaton, 0),
        }
    }

    pub fn monitor(&self) -> &Monitor {
        &self.monitor
    }

    /// Adds an offer.
    pub fn offer(&mut self, action: u8, date: u32) -> Answer {
        push_call(&mut self.input, action, date);
        self.monitor.offer(action, date)
    }

    /// Adds a collection.
    pub fn collect(&mut self, date: u32) -> Answer {
        push_call(&mut self.input, COLLECTION, date);
        self.monitor.collect(date)
    }

    /// What would be decided of an action with those that are pending.
    pub fn outlook(&self, action: u8, date: u32) -> Decision {
        let mut list = self.monitor.pending_actions();
        list.push(action);
        let (automaton, reached) = (self.monitor.automaton(), self.monitor.reached());
        decide(automaton, reached, &list, date)
    }

    /// Whether the lamp is dark if nothing but time passes until a date.
    pub fn stays_dark(&self, date: u32) -> bool {
        let monitor = &self.monitor;
        can_continue(
            monitor.automaton(),
            monitor.reached(),
            &monitor.pending_actions(),
            date,
        )
    }

    /// An input that counts all calls.
    pub fn finish(self) -> Input {
        let count = (self.input.len() - self.start) / CALL;
        Input {
            base: self.input[..self.start].to_vec(),
            whole: self.input,
            count,
        }
    }

    /// An input that counts only repetitions of one more offer.
    pub fn repeating(self, action: u8, date: u32, count: usize) -> Input {
        let mut whole = self.input.clone();
        for _ in 0..count {
            push_call(&mut whole, action, date);
        }
        Input {
            base: self.input,
            whole,
            count,
        }
    }

    /// An input that counts only so many collections, each a tick later than the
    /// one before.
    pub fn later(self, date: u32, count: usize) -> Input {
        let mut whole = self.input.clone();
        for tick in 1..=count as u32 {
            push_call(&mut whole, COLLECTION, date + tick);
        }
        Input {
            base: self.input,
            whole,
            count,
        }
    }

    /// An input of so many calls or a few more: all calls of the script, again
    /// and again, each time so many ticks later.
    pub fn cycling(self, period: u32, least: usize) -> Input {
        let (base, calls) = self.input.split_at(self.start);
        let mut whole = base.to_vec();
        let mut count = 0;
        let mut shift = 0;
        while count < least {
            for call in calls.chunks_exact(CALL) {
                let date = u32::from_le_bytes([call[1], call[2], call[3], call[4]]);
                push_call(&mut whole, call[0], date + shift);
            }
            count += calls.len() / CALL;
            shift += period;
        }
        Input {
            base: base.to_vec(),
            whole,
            count,
        }
    }
}
