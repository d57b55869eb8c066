//! The box: its state and its calls offer, collect and lamp.

use super::cost::correction;
use super::limits::{BATCH, CAP};
use super::liveness::Deadlines;
use super::reach::{any_next, is_lit, outlook, Outlook};
use super::sheet::{waited, Configuration, Sheet};
use crate::desk::Calls;
use crate::limits::{LAST_DATE, MAX_NUMBERED, MAX_PENDING, MAX_SCHEDULED};
use crate::monitor::{Answer, ScheduledAction};
use crate::refusal::Refusal;
use crate::sheet::Automaton;

/// The number and the date of an offer.
#[derive(Clone, Copy, Debug)]
struct Ticket {
    number: u32,
    offered: u32,
}

impl Ticket {
    const NONE: Ticket = Ticket {
        number: 0,
        offered: 0,
    };
}

/// A place of the schedule that is free.
const FREE: ScheduledAction = ScheduledAction {
    action: 0,
    date: 0,
    number: 0,
    offered: 0,
};

/// The box.
#[derive(Clone, Debug)]
pub struct Monitor {
    sheet: Sheet,
    deadlines: Deadlines,
    date: u32,
    pending: [u8; MAX_PENDING],
    /// One for each pending action, and a place for that of the next offer.
    tickets: [Ticket; BATCH],
    held: usize,
    /// The number of the next offer that is not refused.
    next: u32,
    schedule: [ScheduledAction; MAX_SCHEDULED],
    planned: usize,
    /// Where the last action ever scheduled led, and its date. At first the
    /// initial location and the loading date.
    reached: Configuration,
    last: u32,
    lit: bool,
}

impl Monitor {
    /// The first date that a timing from a date on may use, and the
    /// configuration at that date.
    #[inline]
    fn start(&self, date: u32) -> (u32, Configuration) {
        let start = date.max(self.last);
        let ticks = (start - self.last).min(CAP.into()) as u8;
        let readings = waited(self.reached.readings, ticks);
        let location = self.reached.location;
        (start, Configuration { location, readings })
    }

    /// The checks of a call's date, I-8 then S-1.
    #[inline]
    fn check_date(&self, date: u32) -> Result<(), Refusal> {
        if date > LAST_DATE {
            Err(Refusal::I8)
        } else if date < self.date {
            Err(Refusal::S1)
        } else {
            Ok(())
        }
    }

    /// Lets the date pass. The lamp is looked at again where it is dark and the
    /// first possible date moves.
    fn pass(&mut self, date: u32) {
        let (start, from) = self.start(date);
        if !self.lit && start != self.date.max(self.last) {
            let pending = &self.pending[..self.held];
            self.lit = is_lit(&self.sheet, &self.deadlines, pending, from);
        }
        self.date = date;
    }

    fn try_offer(&mut self, action: u8, date: u32) -> Result<Answer, Refusal> {
        if action >= self.sheet.actions {
            return Err(Refusal::I7);
        }
        self.check_date(date)?;
        if self.next > MAX_NUMBERED {
            return Err(Refusal::S5);
        }
        let answer = if self.lit {
            Answer::Dropped
        } else {
            self.decide(action, date)?
        };
        self.next += 1;
        self.date = date;
        Ok(answer)
    }

    /// What becomes of an offer while the lamp is dark.
    fn decide(&mut self, action: u8, date: u32) -> Result<Answer, Refusal> {
        self.tickets[self.held] = Ticket {
            number: self.next,
            offered: date,
        };
        let mut list = [0; BATCH];
        list[..self.held].copy_from_slice(&self.pending[..self.held]);
        list[self.held] = action;
        let list = &list[..=self.held];
        let (start, from) = self.start(date);
        match outlook(&self.sheet, &self.deadlines, list, from) {
            Outlook::Correct => self.schedule_all(list, start, from),
            Outlook::Extensible => self.hold(action),
            Outlook::Dead { lit } => {
                self.lit = lit;
                Ok(Answer::Dropped)
            }
        }
    }

    /// Adds the first correction to the schedule and empties the pending list.
    fn schedule_all(
        &mut self,
        list: &[u8],
        start: u32,
        from: Configuration,
    ) -> Result<Answer, Refusal> {
        let room = list.len() <= MAX_SCHEDULED - self.planned;
        // No wait of a first correction is longer than the cap, so that far from
        // the last date it cannot end too late, and without room it is not needed.
        if !room && start <= LAST_DATE - u32::from(CAP) * BATCH as u32 {
            return Err(Refusal::S3);
        }
        let found = correction(&self.sheet, list, from, start);
        if found.last > LAST_DATE {
            return Err(Refusal::S2);
        }
        if !room {
            return Err(Refusal::S3);
        }
        self.place_all(list, &found.dates);
        self.reached = found.reached;
        self.last = found.last;
        self.lit = !any_next(&self.sheet, &self.deadlines, self.reached);
        Ok(Answer::Scheduled {
            count: list.len(),
            last: found.last,
        })
    }

    /// Moves the pending list and the offer to free places of the schedule.
    #[inline]
    fn place_all(&mut self, list: &[u8], dates: &[u32; BATCH]) {
        let free = self.schedule[self.planned..].iter_mut();
        let dated = list.iter().zip(dates).zip(&self.tickets);
        for (place, ((action, date), ticket)) in free.zip(dated) {
            *place = ScheduledAction {
                action: *action,
                date: *date,
                number: ticket.number,
                offered: ticket.offered,
            };
        }
        self.planned += list.len();
        self.held = 0;
    }

    /// Adds an action to the pending list; its ticket is there.
    fn hold(&mut self, action: u8) -> Result<Answer, Refusal> {
        if self.held == MAX_PENDING {
            return Err(Refusal::S4);
        }
        self.pending[self.held] = action;
        self.held += 1;
        Ok(Answer::Held(self.held))
    }
}

impl Calls for Monitor {
    fn fresh(automaton: Automaton, loaded: u32) -> Self {
        let sheet = Sheet::new(&automaton);
        let second = if sheet.clocks == 1 { CAP } else { 0 };
        let deadlines = Deadlines::new(&sheet);
        let reached = Configuration {
            location: sheet.initial,
            readings: [0, second],
        };
        Monitor {
            lit: !any_next(&sheet, &deadlines, reached),
            deadlines,
            date: loaded,
            pending: [0; MAX_PENDING],
            tickets: [Ticket::NONE; BATCH],
            held: 0,
            next: 1,
            schedule: [FREE; MAX_SCHEDULED],
            planned: 0,
            reached,
            last: loaded,
            sheet,
        }
    }

    fn offer(&mut self, action: u8, date: u32) -> Answer {
        let answer = self.try_offer(action, date);
        answer.unwrap_or_else(Answer::Refused)
    }

    fn collect(&mut self, date: u32) -> Answer {
        if let Err(refusal) = self.check_date(date) {
            return Answer::Refused(refusal);
        }
        self.pass(date);
        let oldest = self.schedule[0];
        if self.planned == 0 || date < oldest.date {
            return Answer::Nothing;
        }
        self.schedule.copy_within(1..self.planned, 0);
        self.planned -= 1;
        Answer::Played(oldest)
    }

    fn lamp(&self) -> bool {
        self.lit
    }
}
