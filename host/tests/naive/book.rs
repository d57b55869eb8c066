//! The book of document 01, taken literally: it reads the rules from the
//! bytes, keeps everything ever scheduled, and tries every dating up to a
//! bound with exact readings.

use host::limits::MAX_BOUND;
use host::monitor::{Answer, ScheduledAction};
use host::refusal::Refusal;
use std::collections::HashSet;

/// A reading above every bound.
const ABOVE: u32 = 50;
const _: () = assert!(ABOVE > MAX_BOUND as u32);

/// Where a run stands: the location and the date at which each clock was 0.
#[derive(Clone, Copy, PartialEq, Eq, Hash)]
struct Stand {
    location: u8,
    zero: [u32; 2],
    date: u32,
}

/// A book and the sheet that it is about.
pub struct Book {
    sheet: Vec<u8>,
    /// How many ticks per command a dating may wait at most.
    wait: u32,
    /// The loading date.
    loaded: u32,
    date: u32,
    /// Each command with its date.
    pub scheduled: Vec<(u8, u32)>,
    pub held: Vec<u8>,
    /// Number and date of the offers of what was scheduled and then of what is
    /// held, in that order.
    pub offers: Vec<(u32, u32)>,
    numbered: u32,
    played: usize,
}

impl Book {
    pub fn new(sheet: Vec<u8>, loaded: u32, wait: u32) -> Self {
        Book {
            sheet,
            wait,
            loaded,
            date: loaded,
            scheduled: Vec::new(),
            held: Vec::new(),
            offers: Vec::new(),
            numbered: 0,
            played: 0,
        }
    }

    /// The rules of a location, seven bytes each.
    fn rules(&self, location: u8) -> Vec<&[u8]> {
        let pair = 6 + 4 * usize::from(location);
        let number =
            |at: usize| usize::from(self.sheet[at]) + 256 * usize::from(self.sheet[at + 1]);
        let (offset, length) = (number(pair), number(pair + 2));
        self.sheet[offset..offset + length].chunks(7).collect()
    }

    /// The one rule that applies, if any.
    fn rule(&self, location: u8, command: u8, readings: [u32; 2]) -> Option<&[u8]> {
        let within = |reading: u32, low: u8, high: u8| {
            reading >= u32::from(low) && (high == 255 || reading <= u32::from(high))
        };
        let mut applying = self.rules(location).into_iter().filter(|rule| {
            rule[0] == command
                && within(readings[0], rule[3], rule[4])
                && within(readings[1], rule[5], rule[6])
        });
        let found = applying.next();
        assert!(applying.next().is_none(), "two rules apply");
        found
    }

    fn accepting(&self, location: u8) -> bool {
        let set = u32::from(self.sheet[4]) + 256 * u32::from(self.sheet[5]);
        set / (1 << location) % 2 == 1
    }

    /// Plays a command at a date.
    fn step(&self, stand: Stand, command: u8, date: u32) -> Option<Stand> {
        assert!(date >= stand.date, "dates never fall");
        let readings = stand.zero.map(|zero| date - zero);
        let rule = self.rule(stand.location, command, readings)?;
        let mut zero = stand.zero;
        for (clock, since) in zero.iter_mut().enumerate() {
            if rule[2] / (1 << clock) % 2 == 1 {
                *since = date;
            }
        }
        let location = rule[1];
        Some(Stand {
            location,
            zero,
            date,
        })
    }

    /// Where everything ever scheduled leads.
    fn stand(&self) -> Stand {
        let mut stand = Stand {
            location: self.sheet[3],
            zero: [self.loaded; 2],
            date: self.loaded,
        };
        for (command, date) in &self.scheduled {
            let next = self.step(stand, *command, *date);
            stand = next.expect("everything scheduled finds its rule");
        }
        stand
    }

    /// Every dating of a list up to the bound, each with where it leads, if
    /// every command finds a rule.
    fn datings(&self, list: &[u8], t: u32) -> Vec<(Vec<u32>, Stand)> {
        let stand = self.stand();
        let first = t.max(stand.date);
        let last = first + self.wait * list.len() as u32;
        let mut found = Vec::new();
        let mut dating = vec![first; list.len()];
        loop {
            let pairs = list.iter().zip(&dating);
            let end = pairs.into_iter().try_fold(stand, |stand, (command, date)| {
                self.step(stand, *command, *date)
            });
            found.extend(end.map(|end| (dating.clone(), end)));
            if !advance(&mut dating, last) {
                return found;
            }
        }
    }

    /// The correction that document 01 chooses.
    fn correction(&self, list: &[u8], t: u32) -> Option<Vec<u32>> {
        let datings = self.datings(list, t).into_iter();
        let satisfying = datings.filter(|(_, end)| self.accepting(end.location));
        satisfying
            .map(|(dating, _)| dating)
            .min_by_key(|dating| (dating.last().copied(), dating.clone()))
    }

    /// Whether some dating of the list, then further commands, satisfy.
    fn open(&self, list: &[u8], t: u32) -> bool {
        let ends = self.datings(list, t).into_iter();
        // All above act alike.
        let reading = |zero: u32, date: u32| (date - zero).min(ABOVE);
        let mut seen: HashSet<(u8, [u32; 2])> = ends
            .map(|(_, end)| (end.location, end.zero.map(|zero| reading(zero, end.date))))
            .collect();
        let mut to_do: Vec<(u8, [u32; 2])> = seen.iter().copied().collect();
        while let Some((location, readings)) = to_do.pop() {
            if self.accepting(location) {
                return true;
            }
            let tick = readings.map(|reading| (reading + 1).min(ABOVE));
            let mut next = vec![(location, tick)];
            next.extend((0..self.sheet[2]).filter_map(|command| {
                let rule = self.rule(location, command, readings)?;
                let kept = |clock: usize| {
                    let reset = rule[2] / (1 << clock) % 2 == 1;
                    if reset {
                        0
                    } else {
                        readings[clock]
                    }
                };
                Some((rule[1], [kept(0), kept(1)]))
            }));
            to_do.extend(next.into_iter().filter(|state| seen.insert(*state)));
        }
        false
    }

    /// The lamp after the calls so far.
    pub fn lit(&self) -> bool {
        if self.held.is_empty() {
            // At least one further command.
            !(0..self.sheet[2]).any(|command| self.open(&[command], self.date))
        } else {
            !self.open(&self.held, self.date)
        }
    }

    pub fn offer(&mut self, command: u8, t: u32) -> Answer {
        if command >= self.sheet[2] {
            return Answer::Refused(Refusal::I7);
        }
        if let Some(refusal) = self.date_refusal(t) {
            return Answer::Refused(refusal);
        }
        if self.numbered >= 1_000_000 {
            return Answer::Refused(Refusal::S5);
        }
        let mut list = self.held.clone();
        list.push(command);
        let answer = if let Some(dating) = self.correction(&list, t) {
            self.case_1(&list, &dating)
        } else if self.open(&list, t) {
            self.case_2(command)
        } else {
            Answer::Dropped
        };
        if !matches!(answer, Answer::Refused(_)) {
            self.date = t;
            self.numbered += 1;
        }
        if matches!(answer, Answer::Scheduled { .. } | Answer::Held(_)) {
            self.offers.push((self.numbered, t));
        }
        answer
    }

    fn date_refusal(&self, t: u32) -> Option<Refusal> {
        if t > 1_000_000_000 {
            Some(Refusal::I8)
        } else if t < self.date {
            Some(Refusal::S1)
        } else {
            None
        }
    }

    fn case_1(&mut self, list: &[u8], dating: &[u32]) -> Answer {
        let last = dating[dating.len() - 1];
        let free = 32 - (self.scheduled.len() - self.played);
        if last > 1_000_000_000 {
            return Answer::Refused(Refusal::S2);
        }
        if list.len() > free {
            return Answer::Refused(Refusal::S3);
        }
        let pairs = list.iter().copied().zip(dating.iter().copied());
        self.scheduled.extend(pairs);
        self.held.clear();
        let count = list.len();
        Answer::Scheduled { count, last }
    }

    fn case_2(&mut self, command: u8) -> Answer {
        if self.held.len() == 16 {
            return Answer::Refused(Refusal::S4);
        }
        self.held.push(command);
        Answer::Held(self.held.len())
    }

    pub fn collect(&mut self, t: u32) -> Answer {
        if let Some(refusal) = self.date_refusal(t) {
            return Answer::Refused(refusal);
        }
        self.date = t;
        let oldest = self.scheduled.get(self.played).copied();
        match oldest {
            Some((action, date)) if date <= t => {
                let (number, offered) = self.offers[self.played];
                self.played += 1;
                Answer::Played(ScheduledAction {
                    action,
                    date,
                    number,
                    offered,
                })
            }
            _ => Answer::Nothing,
        }
    }
}

/// The next dating in order, none of its dates above `last`; false if none.
fn advance(dating: &mut [u32], last: u32) -> bool {
    let Some(place) = dating.iter().rposition(|date| *date < last) else {
        return false;
    };
    let date = dating[place] + 1;
    dating[place..].fill(date);
    true
}
