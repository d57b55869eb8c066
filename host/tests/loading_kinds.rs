//! The random kinds with loading dates: which dates they have, that their calls
//! are moved there, and that wrong programs print other lines.

use host::desk::{self, Calls, CALL};
use host::fast::Monitor;
use host::generate::{Kind, KINDS, ONCE};
use host::limits::LAST_DATE;
use host::loading::{count, missing, Loading};
use host::monitor::Answer;
use host::sheet::Automaton;
use host::tally::Tally;
use std::marker::PhantomData;

/// Seeds of each kind among which all that is needed must come.
const SEEDS: u64 = 100;

/// The inputs of all kinds.
fn inputs() -> impl Iterator<Item = (&'static Kind, u64, Vec<u8>)> {
    let of_kind = |kind: &'static Kind| (0..SEEDS).map(move |it| (kind, it, kind.input_at(it)));
    KINDS.iter().flat_map(of_kind)
}

fn date_and_rest(input: &[u8]) -> Option<(u32, &[u8])> {
    Loading::AtDate.split(input)
}

fn lines_of<M: Calls>(input: &[u8]) -> String {
    desk::run_as::<M>(Loading::AtDate, input)
}

#[test]
fn inputs_depend_on_kind_and_seed_alone() {
    for kind in KINDS {
        assert_eq!(kind.input_at(7), kind.input_at(7));
        assert_eq!(kind.input_as(Loading::AtDate, 7), kind.input_at(7));
        assert_eq!(kind.input_as(Loading::AtZero, 7), kind.input(7));
        assert!(kind.begins(Loading::AtDate));
    }
    // These have a million calls, and are enough without loading dates.
    for kind in ONCE {
        assert!(kind.begins(Loading::AtZero) && !kind.begins(Loading::AtDate));
    }
}

#[test]
fn loading_dates() {
    let inputs: Vec<Vec<u8>> = inputs().map(|(_, _, input)| input).collect();
    let dates = inputs.iter().filter_map(|input| date_and_rest(input));
    let dates: Vec<u32> = dates.map(|(date, _)| date).collect();
    let count = |test: &dyn Fn(u32) -> bool| dates.iter().filter(|date| test(**date)).count();
    assert!(count(&|date| date == 0) >= 100);
    assert!(count(&|date| (1..=60).contains(&date)) >= 200);
    assert!(count(&|date| (61..LAST_DATE - 700).contains(&date)) >= 500);
    assert!(count(&|date| (LAST_DATE - 700..LAST_DATE).contains(&date)) >= 250);
    assert!(count(&|date| (LAST_DATE - 41..LAST_DATE).contains(&date)) >= 150);
    assert!(count(&|date| (LAST_DATE - 4..LAST_DATE).contains(&date)) >= 50);
    assert!(count(&|date| date == LAST_DATE) >= 70);
    assert!(count(&|date| date == LAST_DATE + 1) >= 50);
    assert!(count(&|date| (LAST_DATE + 2..u32::MAX).contains(&date)) >= 50);
    assert!(count(&|date| date == u32::MAX) >= 40);
}

/// What the lines of all inputs show, and how often at least.
const SHOWN: &[(&str, u64)] = &[
    ("sheet loaded", 1000),
    ("sheet refused I-8", 150),
    (
        "loading date above the last date, refused for the sheet",
        25,
    ),
    (
        "loading date equal to the last date, a call not refused",
        40,
    ),
    ("first call before the loading date, refused S-1", 180),
    ("first call a tick before the loading date, refused S-1", 80),
    ("first call at the loading date", 400),
    ("loading date cut short", 8),
    ("refused S-2", 500),
    ("refused I-8", 5000),
    ("refused S-3", 1000),
    ("refused S-4", 100),
    ("scheduled 1", 10000),
    ("scheduled 2 to 16", 3000),
    ("scheduled 17", 50),
    ("held", 8000),
    ("dropped", 6000),
    ("played", 18000),
    ("none", 5000),
    ("lamp 0", 80000),
    ("lamp 1", 8000),
];

#[test]
fn all_that_is_needed_comes() {
    let mut tally = Tally::default();
    assert_eq!(missing(&tally).len(), 13);
    for (_, _, input) in inputs() {
        let lines = lines_of::<Monitor>(&input);
        tally.add(&lines);
        count(&mut tally, &input, &lines);
    }
    assert!(missing(&tally).is_empty());
    assert_eq!(tally.count("other"), 0);
    for (name, least) in SHOWN {
        let found = tally.count(name);
        assert!(found >= *least, "{name} only {found} times");
    }
}

/// The dates of an input's calls.
fn dates(calls: &[u8]) -> Vec<u32> {
    calls.chunks_exact(CALL).map(desk::date_of).collect()
}

/// Most calls are those of the plain input, at dates that are moved with the
/// loading date or are about the last date.
#[test]
fn calls_are_moved() {
    let (mut whole, mut moved) = (0, 0);
    for (kind, seed, input) in inputs() {
        let plain = kind.input(seed);
        let parts = date_and_rest(&input).and_then(|(date, rest)| Some((date, desk::split(rest)?)));
        let (Some((loaded, (sheet, calls))), Some((own, before))) = (parts, desk::split(&plain))
        else {
            continue;
        };
        assert_eq!(sheet, own);
        let (calls, before) = (dates(calls), dates(before));
        let more = calls.len() - before.len();
        assert!(more <= 3);
        let later = before.iter().map(|date| match *date {
            early if early < LAST_DATE / 2 => early.saturating_add(loaded),
            late => late,
        });
        whole += 1;
        moved += usize::from(later.eq(calls[more..].iter().copied()));
    }
    assert!(whole >= 1500, "{whole}");
    assert!(
        moved * 10 >= whole * 8 && moved * 20 <= whole * 19,
        "{moved}"
    );
}

// Wrong programs.

/// How a wrong box is loaded.
trait Load {
    fn load(automaton: Automaton, loaded: u32) -> Monitor;
}

/// A box that is loaded so.
struct Wrong<L>(Monitor, PhantomData<L>);

impl<L: Load> Calls for Wrong<L> {
    fn fresh(automaton: Automaton, loaded: u32) -> Self {
        Wrong(L::load(automaton, loaded), PhantomData)
    }

    fn offer(&mut self, action: u8, date: u32) -> Answer {
        self.0.offer(action, date)
    }

    fn collect(&mut self, date: u32) -> Answer {
        self.0.collect(date)
    }

    fn lamp(&self) -> bool {
        self.0.lamp()
    }
}

/// The loading date is ignored.
struct Ignored;

impl Load for Ignored {
    fn load(automaton: Automaton, _: u32) -> Monitor {
        Monitor::fresh(automaton, 0)
    }
}

/// The box's date is right. The last scheduled date and the clocks start at 0.
struct OldClocks;

impl Load for OldClocks {
    fn load(automaton: Automaton, loaded: u32) -> Monitor {
        let mut monitor = Monitor::fresh(automaton, 0);
        monitor.collect(loaded);
        monitor
    }
}

/// The last scheduled date and the clocks are right. A call before the loading
/// date is taken as one at that date.
struct OldDate {
    right: Monitor,
    loaded: u32,
}

impl Calls for OldDate {
    fn fresh(automaton: Automaton, loaded: u32) -> Self {
        let right = Monitor::fresh(automaton, loaded);
        OldDate { right, loaded }
    }

    fn offer(&mut self, action: u8, date: u32) -> Answer {
        self.right.offer(action, date.max(self.loaded))
    }

    fn collect(&mut self, date: u32) -> Answer {
        self.right.collect(date.max(self.loaded))
    }

    fn lamp(&self) -> bool {
        self.right.lamp()
    }
}

/// All is right but the lamp, which is worked out at the load with clocks that
/// count from date 0, and kept until a call is not refused.
struct OldLamp {
    right: Monitor,
    fresh: Option<bool>,
}

impl OldLamp {
    fn after(&mut self, answer: Answer) -> Answer {
        if !matches!(answer, Answer::Refused(_)) {
            self.fresh = None;
        }
        answer
    }
}

impl Calls for OldLamp {
    fn fresh(automaton: Automaton, loaded: u32) -> Self {
        let fresh = Some(OldClocks::load(automaton.clone(), loaded).lamp());
        let right = Monitor::fresh(automaton, loaded);
        OldLamp { right, fresh }
    }

    fn offer(&mut self, action: u8, date: u32) -> Answer {
        let answer = self.right.offer(action, date);
        self.after(answer)
    }

    fn collect(&mut self, date: u32) -> Answer {
        let answer = self.right.collect(date);
        self.after(answer)
    }

    fn lamp(&self) -> bool {
        self.fresh.unwrap_or(self.right.lamp())
    }
}

/// A late loading date is refused before the sheet is looked at.
fn date_first(input: &[u8]) -> String {
    match date_and_rest(input) {
        Some((date, _)) if date > LAST_DATE => "sheet refused I-8\n".into(),
        _ => lines_of::<Monitor>(input),
    }
}

/// The lines for another loading date.
fn with_date(input: &[u8], change: fn(u32) -> u32) -> String {
    match date_and_rest(input) {
        Some((date, rest)) => {
            let other = change(date).to_le_bytes();
            lines_of::<Monitor>(&[&other, rest].concat())
        }
        None => lines_of::<Monitor>(input),
    }
}

/// The last date is refused as the next one is.
fn limit_refused(input: &[u8]) -> String {
    with_date(input, |date| date + u32::from(date == LAST_DATE))
}

/// The first date above the last is taken for the last.
fn limit_off_by_one(input: &[u8]) -> String {
    with_date(input, |date| date - u32::from(date == LAST_DATE + 1))
}

/// So are all dates above it.
fn no_limit(input: &[u8]) -> String {
    with_date(input, |date| date.min(LAST_DATE))
}

fn high_byte_first(input: &[u8]) -> String {
    with_date(input, u32::swap_bytes)
}

/// A wrong program: its name, its lines, and how many inputs must show it.
type Program = (&'static str, fn(&[u8]) -> String, usize);

const WRONG: &[Program] = &[
    ("loading date ignored", lines_of::<Wrong<Ignored>>, 500),
    ("clocks from date 0", lines_of::<Wrong<OldClocks>>, 350),
    ("no S-1 before the loading date", lines_of::<OldDate>, 250),
    ("fresh lamp from date 0", lines_of::<OldLamp>, 35),
    ("I-8 before the sheet's refusals", date_first, 25),
    ("I-8 at the limit", limit_refused, 65),
    ("no I-8 a tick above the limit", limit_off_by_one, 50),
    ("no I-8", no_limit, 150),
    ("high byte first", high_byte_first, 800),
    ("no date in the input", desk::run, 1200),
];

#[test]
fn wrong_programs_are_seen() {
    let mut seen = vec![0; WRONG.len()];
    for (_, _, input) in inputs() {
        let right = lines_of::<Monitor>(&input);
        for (count, (_, wrong, _)) in seen.iter_mut().zip(WRONG) {
            *count += usize::from(wrong(&input) != right);
        }
    }
    for (count, (name, _, least)) in seen.into_iter().zip(WRONG) {
        assert!(count >= *least, "{name}: only {count} inputs differ");
    }
}
