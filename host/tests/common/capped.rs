//! A box that caps readings at a number of its own, by tables over locations and
//! capped readings. Where that number is above all bounds of a sheet, it answers
//! as documents 01 and 02 say.

use host::desk::Calls;
use host::limits::{LAST_DATE, MAX_NUMBERED, MAX_PENDING, MAX_SCHEDULED};
use host::monitor::{Answer, ScheduledAction};
use host::refusal::Refusal;
use host::sheet::{Automaton, MAX_LOCATIONS};

/// A location and two capped readings.
type State = (u8, usize, usize);

/// A cost that is not known yet, and that of what never satisfies.
const UNKNOWN: u16 = u16::MAX;
const NEVER: u16 = u16::MAX - 1;

/// An automaton whose readings are capped.
struct Table<const CAP: usize> {
    automaton: Automaton,
    /// Whether an accepting location can be reached, by state.
    live: Vec<bool>,
}

impl<const CAP: usize> Table<CAP> {
    const SIDE: usize = CAP + 1;
    const STATES: usize = MAX_LOCATIONS * Self::SIDE * Self::SIDE;

    fn new(automaton: Automaton) -> Self {
        let live = vec![false; Self::STATES];
        let mut table = Table { automaton, live };
        while table.improve() {}
        table
    }

    fn place((location, x, y): State) -> usize {
        (usize::from(location) * Self::SIDE + x) * Self::SIDE + y
    }

    /// Both readings some ticks later.
    fn later((location, x, y): State, ticks: usize) -> State {
        (location, (x + ticks).min(CAP), (y + ticks).min(CAP))
    }

    /// A tick later, if that changes anything.
    fn tick(state: State) -> Option<State> {
        let next = Self::later(state, 1);
        (next != state).then_some(next)
    }

    fn play(&self, (location, x, y): State, action: u8) -> Option<State> {
        let mut rules = self.automaton.outgoing[usize::from(location)].iter();
        let rule = rules.find(|rule| {
            let [first, second] = rule.guards;
            rule.action == action && first.contains(x as u32) && second.contains(y as u32)
        })?;
        let kept = |reset: bool, reading: usize| if reset { 0 } else { reading };
        Some((
            rule.target,
            kept(rule.resets[0], x),
            kept(rule.resets[1], y),
        ))
    }

    fn is_live(&self, state: State) -> bool {
        self.live[Self::place(state)]
    }

    fn leads_on(&self, state: State) -> bool {
        let mut actions = 0..self.automaton.actions;
        self.automaton.is_accepting(state.0)
            || Self::tick(state).is_some_and(|next| self.is_live(next))
            || actions.any(|it| self.play(state, it).is_some_and(|next| self.is_live(next)))
    }

    /// Adds the states that lead to live ones; answers whether there were any.
    fn improve(&mut self) -> bool {
        let mut any = false;
        for location in (0..self.automaton.locations).rev() {
            for x in (0..=CAP).rev() {
                for y in (0..=CAP).rev() {
                    let state = (location, x, y);
                    if !self.is_live(state) && self.leads_on(state) {
                        self.live[Self::place(state)] = true;
                        any = true;
                    }
                }
            }
        }
        any
    }

    /// The least ticks in which a list can be played to an accepting location.
    fn cost(&self, known: &mut [u16], list: &[u8], state: State) -> u16 {
        let Some((action, rest)) = list.split_first() else {
            return match self.automaton.is_accepting(state.0) {
                true => 0,
                false => NEVER,
            };
        };
        let place = rest.len() * Self::STATES + Self::place(state);
        if known[place] == UNKNOWN {
            let now = self.play(state, *action);
            let now = now.map_or(NEVER, |next| self.cost(known, rest, next));
            let later = Self::tick(state);
            let later = later.map_or(NEVER, |next| self.cost(known, list, next));
            known[place] = now.min(later.saturating_add(1)).min(NEVER);
        }
        known[place]
    }

    /// The first correction from a state: ticks for each action, and where it leads.
    fn correction(&self, list: &[u8], mut state: State) -> Option<(Vec<u32>, State)> {
        let mut known = vec![UNKNOWN; list.len() * Self::STATES];
        let total = self.cost(&mut known, list, state);
        let (mut left, mut ticks) = (total, Vec::new());
        if total == NEVER {
            return None;
        }
        for (index, action) in list.iter().enumerate() {
            let rest = &list[index + 1..];
            state = loop {
                let next = self.play(state, *action);
                match next.filter(|next| self.cost(&mut known, rest, *next) == left) {
                    Some(next) => break next,
                    None => (state, left) = (Self::later(state, 1), left - 1),
                }
            };
            ticks.push(u32::from(total - left));
        }
        Some((ticks, state))
    }

    /// Whether some dating of a list leads to a live state.
    fn is_open(&self, seen: &mut [bool], list: &[u8], state: State) -> bool {
        let Some((action, rest)) = list.split_first() else {
            return self.is_live(state);
        };
        let place = rest.len() * Self::STATES + Self::place(state);
        if std::mem::replace(&mut seen[place], true) {
            return false;
        }
        let next = self.play(state, *action);
        next.is_some_and(|next| self.is_open(seen, rest, next))
            || Self::tick(state).is_some_and(|next| self.is_open(seen, list, next))
    }

    /// The same with nothing known.
    fn open(&self, list: &[u8], state: State) -> bool {
        self.is_open(&mut vec![false; list.len() * Self::STATES], list, state)
    }
}

/// A command with the number and the date of its offer.
type Offer = (u8, u32, u32);

/// The box.
pub struct Capped<const CAP: usize> {
    table: Table<CAP>,
    date: u32,
    held: Vec<Offer>,
    schedule: Vec<ScheduledAction>,
    numbered: u32,
    /// Where all that was ever scheduled leads, and its last date.
    reached: State,
    last: u32,
}

impl<const CAP: usize> Capped<CAP> {
    /// The first date that a dating may use, and the state there.
    fn start(&self, date: u32) -> (u32, State) {
        let start = date.max(self.last);
        let ticks = (start - self.last) as usize;
        (start, Table::<CAP>::later(self.reached, ticks))
    }

    fn held(&self) -> Vec<u8> {
        self.held.iter().map(|(action, _, _)| *action).collect()
    }

    fn check_date(&self, date: u32) -> Result<(), Refusal> {
        match date {
            _ if date > LAST_DATE => Err(Refusal::I8),
            _ if date < self.date => Err(Refusal::S1),
            _ => Ok(()),
        }
    }

    fn try_offer(&mut self, action: u8, date: u32) -> Result<Answer, Refusal> {
        if action >= self.table.automaton.actions {
            return Err(Refusal::I7);
        }
        self.check_date(date)?;
        if self.numbered == MAX_NUMBERED {
            return Err(Refusal::S5);
        }
        let list = [self.held(), vec![action]].concat();
        let offer = (action, self.numbered + 1, date);
        let (start, state) = self.start(date);
        let answer = match self.table.correction(&list, state) {
            Some((ticks, state)) => self.schedule_all(offer, start, &ticks, state)?,
            None if !self.table.open(&list, state) => Answer::Dropped,
            None if self.held.len() == MAX_PENDING => return Err(Refusal::S4),
            None => {
                self.held.push(offer);
                Answer::Held(self.held.len())
            }
        };
        (self.date, self.numbered) = (date, self.numbered + 1);
        Ok(answer)
    }

    fn schedule_all(
        &mut self,
        offer: Offer,
        start: u32,
        ticks: &[u32],
        state: State,
    ) -> Result<Answer, Refusal> {
        let (count, last) = (ticks.len(), start + ticks[ticks.len() - 1]);
        if last > LAST_DATE {
            return Err(Refusal::S2);
        }
        if self.schedule.len() + count > MAX_SCHEDULED {
            return Err(Refusal::S3);
        }
        self.held.push(offer);
        for ((action, number, offered), ticks) in self.held.drain(..).zip(ticks) {
            self.schedule.push(ScheduledAction {
                action,
                date: start + ticks,
                number,
                offered,
            });
        }
        (self.reached, self.last) = (state, last);
        Ok(Answer::Scheduled { count, last })
    }
}

impl<const CAP: usize> Calls for Capped<CAP> {
    fn fresh(automaton: Automaton, loaded: u32) -> Self {
        Capped {
            reached: (automaton.initial, 0, 0),
            table: Table::new(automaton),
            date: loaded,
            held: Vec::new(),
            schedule: Vec::new(),
            numbered: 0,
            last: loaded,
        }
    }

    fn offer(&mut self, action: u8, date: u32) -> Answer {
        let answer = self.try_offer(action, date);
        answer.unwrap_or_else(Answer::Refused)
    }

    fn collect(&mut self, date: u32) -> Answer {
        if let Err(refusal) = self.check_date(date) {
            return Answer::Refused(refusal);
        }
        self.date = date;
        match self.schedule.first() {
            Some(oldest) if oldest.date <= date => Answer::Played(self.schedule.remove(0)),
            _ => Answer::Nothing,
        }
    }

    fn lamp(&self) -> bool {
        let (_, state) = self.start(self.date);
        let open = |list: &[u8]| self.table.open(list, state);
        match self.held.is_empty() {
            true => !(0..self.table.automaton.actions).any(|action| open(&[action])),
            false => !open(&self.held()),
        }
    }
}
