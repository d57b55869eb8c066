//! The box: its state and its calls offer, collect and lamp.

use crate::decide::{can_continue, decide, Decision};
use crate::limits::{LAST_DATE, MAX_NUMBERED, MAX_PENDING, MAX_SCHEDULED};
use crate::refusal::Refusal;
use crate::runs::{beginning, Reached, TimedAction};
use crate::sheet::Automaton;

/// An action that is held, with the number and the date of its offer.
#[derive(Clone, Copy, Debug, PartialEq, Eq)]
pub struct PendingAction {
    pub action: u8,
    pub number: u32,
    pub offered: u32,
}

/// An action with its date, and with the number and the date of its offer.
#[derive(Clone, Copy, Debug, PartialEq, Eq)]
pub struct ScheduledAction {
    pub action: u8,
    pub date: u32,
    pub number: u32,
    pub offered: u32,
}

impl PendingAction {
    /// The same with the date that a correction gives it.
    fn at(self, date: u32) -> ScheduledAction {
        ScheduledAction {
            action: self.action,
            date,
            number: self.number,
            offered: self.offered,
        }
    }
}

impl ScheduledAction {
    /// What it is in a run.
    pub fn timed(&self) -> TimedAction {
        TimedAction {
            action: self.action,
            date: self.date,
        }
    }
}

/// The answer to an offer or a collection.
#[derive(Clone, Copy, Debug, PartialEq, Eq)]
pub enum Answer {
    /// How many actions the offer scheduled, and their last date.
    Scheduled {
        count: usize,
        last: u32,
    },
    /// How many actions are pending now.
    Held(usize),
    Dropped,
    Played(ScheduledAction),
    Nothing,
    Refused(Refusal),
}

/// The box. It keeps all that was ever scheduled; the first `played` of these
/// have left the schedule.
#[derive(Clone, Debug, PartialEq, Eq)]
pub struct Monitor {
    automaton: Automaton,
    date: u32,
    pending: Vec<PendingAction>,
    history: Vec<ScheduledAction>,
    played: usize,
    /// How many offers have a number; these are 1, 2 and so on.
    numbered: u32,
    /// Where the last action ever scheduled led, and its date. At first the
    /// initial location and the loading date.
    reached: Reached,
}

impl Monitor {
    /// A fresh box, loaded at a date that is not above the last one.
    pub fn new(automaton: Automaton, loaded: u32) -> Self {
        let reached = beginning(&automaton, loaded);
        Monitor {
            automaton,
            date: loaded,
            pending: Vec::new(),
            history: Vec::new(),
            played: 0,
            numbered: 0,
            reached,
        }
    }

    pub fn automaton(&self) -> &Automaton {
        &self.automaton
    }

    pub fn date(&self) -> u32 {
        self.date
    }

    /// What is held, oldest first.
    pub fn pending(&self) -> &[PendingAction] {
        &self.pending
    }

    /// The actions that are held, oldest first.
    pub fn pending_actions(&self) -> Vec<u8> {
        self.pending.iter().map(|held| held.action).collect()
    }

    /// Everything ever scheduled, oldest first.
    pub fn history(&self) -> &[ScheduledAction] {
        &self.history
    }

    /// What is scheduled and not yet played, oldest first.
    pub fn schedule(&self) -> &[ScheduledAction] {
        &self.history[self.played..]
    }

    /// Where the last action ever scheduled led.
    pub fn reached(&self) -> Reached {
        self.reached
    }

    /// Offers an action at a date.
    pub fn offer(&mut self, action: u8, date: u32) -> Answer {
        let answer = self.try_offer(action, date);
        answer.unwrap_or_else(Answer::Refused)
    }

    /// Collects the oldest scheduled action if it is due at a date.
    pub fn collect(&mut self, date: u32) -> Answer {
        if let Err(refusal) = self.check_date(date) {
            return Answer::Refused(refusal);
        }
        self.date = date;
        match self.schedule().first().copied() {
            Some(oldest) if oldest.date <= date => {
                self.played += 1;
                Answer::Played(oldest)
            }
            _ => Answer::Nothing,
        }
    }

    /// Whether the lamp is lit: nothing that can still come satisfies.
    pub fn lamp(&self) -> bool {
        let pending = self.pending_actions();
        !can_continue(&self.automaton, self.reached, &pending, self.date)
    }

    fn try_offer(&mut self, action: u8, date: u32) -> Result<Answer, Refusal> {
        if action >= self.automaton.actions {
            return Err(Refusal::I7);
        }
        self.check_date(date)?;
        if self.numbered == MAX_NUMBERED {
            return Err(Refusal::S5);
        }
        let mut actions = self.pending_actions();
        actions.push(action);
        let offer = PendingAction {
            action,
            number: self.numbered + 1,
            offered: date,
        };
        let answer = match decide(&self.automaton, self.reached, &actions, date) {
            Decision::Correct(timing) => self.schedule_all(offer, &timing)?,
            Decision::Hold => self.hold(offer)?,
            Decision::Drop => Answer::Dropped,
        };
        self.numbered = offer.number;
        self.date = date;
        Ok(answer)
    }

    /// The checks of a call's date, I-8 then S-1.
    fn check_date(&self, date: u32) -> Result<(), Refusal> {
        if date > LAST_DATE {
            Err(Refusal::I8)
        } else if date < self.date {
            Err(Refusal::S1)
        } else {
            Ok(())
        }
    }

    /// Adds a correction of the pending list and an offer to the schedule, and
    /// empties the list.
    fn schedule_all(&mut self, offer: PendingAction, timing: &[u32]) -> Result<Answer, Refusal> {
        let (count, last) = (timing.len(), timing[timing.len() - 1]);
        // The correction has the least last date, so all others end late too.
        if last > LAST_DATE {
            return Err(Refusal::S2);
        }
        let free = MAX_SCHEDULED - self.schedule().len();
        if count > free {
            return Err(Refusal::S3);
        }
        self.pending.push(offer);
        let pairs = self.pending.drain(..).zip(timing);
        let batch: Vec<ScheduledAction> = pairs.map(|(held, date)| held.at(*date)).collect();
        let run: Vec<TimedAction> = batch.iter().map(ScheduledAction::timed).collect();
        let reached = self.reached.follow(&self.automaton, &run);
        self.reached = reached.expect("a correction can be followed");
        self.history.extend(batch);
        Ok(Answer::Scheduled { count, last })
    }

    /// Adds an offer to the pending list.
    fn hold(&mut self, offer: PendingAction) -> Result<Answer, Refusal> {
        if self.pending.len() == MAX_PENDING {
            return Err(Refusal::S4);
        }
        self.pending.push(offer);
        Ok(Answer::Held(self.pending.len()))
    }
}
