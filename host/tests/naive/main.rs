//! Compares the monitor with a book that tries every dating.

mod book;

use book::Book;
use host::generate::{draw, Bounds, Goal, Profile, EARLIER_MOST};
use host::limits::{LAST_DATE, MAX_BOUND};
use host::monitor::{Answer, Monitor};
use host::random::Random;
use host::refusal::Refusal;
use host::sheet;

/// What a comparison runs over.
struct Trial {
    sheets: u64,
    calls: u32,
    /// Longest list of commands that the book dates.
    list: usize,
    bounds: &'static [Bounds],
    /// Ticks per command that the book lets a dating wait.
    wait: u32,
    /// Largest step of the dates.
    step: u32,
    loaded: u32,
    /// Date of a first collection, once the loading date has passed.
    start: u32,
}

/// How often answers occurred.
#[derive(Default, Debug)]
struct Seen {
    scheduled: u32,
    batches: u32,
    waits: u32,
    held: u32,
    dropped: u32,
    played: u32,
    /// Played, offered before their date.
    played_later: u32,
    lit: u32,
    dark: u32,
    lit_while_held: u32,
    /// Refusals for the last date; not required everywhere.
    too_late: u32,
}

/// All bounds, the last ones, and those around the earlier largest.
const ALL: Bounds = Bounds {
    low: 0,
    high: MAX_BOUND,
};
const LAST: Bounds = Bounds {
    low: MAX_BOUND - 4,
    high: MAX_BOUND,
};
const EARLIER: Bounds = Bounds {
    low: EARLIER_MOST - 2,
    high: EARLIER_MOST + 2,
};
/// Ticks of a wait after which no reading is within bounds, and some more.
const LONG: u32 = MAX_BOUND as u32 + 3;

fn profile(random: &mut Random, bounds: Bounds) -> Profile {
    Profile {
        locations: (1, 4),
        clocks: random.byte(1, 2),
        actions: (1, 3),
        bounds,
        splits: random.between(0, 3),
        density: random.between(30, 80),
        forward: random.between(20, 90),
        resets: random.between(10, 60),
        gaps: random.between(20, 80),
        goal: random.pick(&[Goal::Last, Goal::Last, Goal::Percent(0), Goal::Percent(30)]),
    }
}

fn run(trial: &Trial, salt: u64) -> Seen {
    let mut seen = Seen::default();
    for seed in 0..trial.sheets {
        let random = &mut Random::new(seed.wrapping_mul(1000) + salt);
        let bounds = random.pick(trial.bounds);
        let profile = profile(random, bounds);
        let bytes = draw(random, &profile).bytes();
        let automaton = sheet::read(&bytes).expect("drawn sheets load");
        let mut monitor = Monitor::new(automaton, trial.loaded);
        let mut book = Book::new(bytes, trial.loaded, trial.wait);
        assert_eq!(monitor.lamp(), book.lit());
        for date in [trial.loaded.saturating_sub(1), trial.start] {
            assert_eq!(monitor.collect(date), book.collect(date));
        }
        for _ in 0..trial.calls {
            if !call(trial, random, &mut monitor, &mut book, &mut seen) {
                break;
            }
        }
    }
    seen
}

/// Makes one call on both; false once the next list would be too long.
fn call(
    trial: &Trial,
    random: &mut Random,
    monitor: &mut Monitor,
    book: &mut Book,
    seen: &mut Seen,
) -> bool {
    if monitor.pending().len() == trial.list {
        return false;
    }
    let date = (monitor.date() + random.between(0, trial.step)).min(LAST_DATE);
    let (answer, expected) = if random.chance(25) {
        (monitor.collect(date), book.collect(date))
    } else {
        let action = random.byte(0, monitor.automaton().actions - 1);
        (monitor.offer(action, date), book.offer(action, date))
    };
    assert_eq!(answer, expected);
    assert_eq!(monitor.pending_actions(), book.held);
    let history = monitor.history().iter();
    let history: Vec<(u8, u32)> = history.map(|timed| (timed.action, timed.date)).collect();
    assert_eq!(history, book.scheduled);
    assert_eq!(offers(monitor), book.offers);
    let lit = monitor.lamp();
    assert_eq!(lit, book.lit());
    count(seen, answer, lit, !book.held.is_empty(), date);
    true
}

/// Number and date of the offers of all that was scheduled or is held.
fn offers(monitor: &Monitor) -> Vec<(u32, u32)> {
    let scheduled = monitor.history().iter();
    let scheduled = scheduled.map(|timed| (timed.number, timed.offered));
    let held = monitor.pending().iter();
    let held = held.map(|held| (held.number, held.offered));
    scheduled.chain(held).collect()
}

fn count(seen: &mut Seen, answer: Answer, lit: bool, held: bool, date: u32) {
    match answer {
        Answer::Played(played) => {
            seen.played += 1;
            seen.played_later += u32::from(played.offered < played.date);
        }
        Answer::Scheduled { count, last } => {
            seen.scheduled += 1;
            seen.batches += u32::from(count > 1);
            seen.waits += u32::from(last > date);
        }
        Answer::Held(_) => seen.held += 1,
        Answer::Dropped => seen.dropped += 1,
        Answer::Refused(Refusal::S2) => seen.too_late += 1,
        _ => {}
    }
    seen.lit += u32::from(lit);
    seen.dark += u32::from(!lit);
    seen.lit_while_held += u32::from(lit && held);
}

/// Each answer must have occurred this often.
fn require(seen: &Seen, least: u32) {
    let counts = [
        seen.scheduled,
        seen.batches,
        seen.waits,
        seen.held,
        seen.dropped,
        seen.played,
        seen.played_later,
        seen.lit,
        seen.dark,
        seen.lit_while_held,
    ];
    assert!(counts.iter().all(|count| *count >= least), "{seen:?}");
}

#[test]
fn small_bounds_lists_of_four() {
    // Readings above 4 act alike, so that waits of 6 are enough.
    let trial = Trial {
        sheets: 3000,
        calls: 14,
        list: 4,
        bounds: &[Bounds { low: 0, high: 2 }, Bounds { low: 1, high: 4 }],
        wait: 6,
        step: 3,
        loaded: 0,
        start: 0,
    };
    require(&run(&trial, 1), 300);
}

#[test]
fn all_bounds_lists_of_two() {
    let trial = Trial {
        sheets: 1500,
        calls: 12,
        list: 2,
        bounds: &[ALL, LAST, EARLIER, Bounds { low: 3, high: 12 }],
        wait: LONG,
        step: 12,
        loaded: 0,
        start: 0,
    };
    require(&run(&trial, 2), 80);
}

#[test]
fn all_bounds_lists_of_three() {
    let trial = Trial {
        sheets: 250,
        calls: 8,
        list: 3,
        bounds: &[ALL, LAST, Bounds { low: 5, high: 20 }],
        wait: LONG,
        step: 12,
        loaded: 0,
        start: 0,
    };
    require(&run(&trial, 3), 10);
}

#[test]
fn near_the_last_date() {
    let trial = Trial {
        sheets: 1500,
        calls: 14,
        list: 3,
        bounds: &[Bounds { low: 0, high: 2 }, Bounds { low: 1, high: 4 }],
        wait: 6,
        step: 1,
        loaded: 0,
        start: LAST_DATE - 6,
    };
    let seen = run(&trial, 4);
    assert!(seen.too_late >= 100, "{seen:?}");
}

/// A trial with small bounds of a box loaded at a date.
fn loaded_at(loaded: u32, step: u32) -> Trial {
    Trial {
        sheets: 1500,
        calls: 12,
        list: 3,
        bounds: &[Bounds { low: 0, high: 2 }, Bounds { low: 1, high: 4 }],
        wait: 6,
        step,
        loaded,
        start: loaded,
    }
}

#[test]
fn loaded_in_the_middle_of_a_day() {
    // Counted from date 0, the first readings would be above some bounds at 3
    // and above all at 43200.
    for (loaded, salt) in [(3, 5), (43_200, 6)] {
        require(&run(&loaded_at(loaded, 3), salt), 100);
    }
}

#[test]
fn loaded_with_all_bounds() {
    let trial = Trial {
        sheets: 600,
        calls: 10,
        list: 2,
        bounds: &[ALL, Bounds { low: 3, high: 12 }],
        wait: LONG,
        ..loaded_at(86_400, 12)
    };
    require(&run(&trial, 7), 25);
}

#[test]
fn loaded_near_the_last_date() {
    for (before, salt) in [(6, 8), (0, 9)] {
        let seen = run(&loaded_at(LAST_DATE - before, 1), salt);
        assert!(seen.too_late >= 100, "{seen:?}");
        assert!(seen.scheduled >= 100 && seen.held >= 100, "{seen:?}");
    }
}
