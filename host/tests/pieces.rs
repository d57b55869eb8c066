//! Inputs in pieces: which they are, and where they are cut.

use host::desk::{split, CALL};
use host::generate::{kind_named, Kind, BLOCK, KINDS};
use host::loading::Loading;
use host::pieces::{cuts, feed, EVERY};

/// The gate's seeds of each kind.
const SEEDS: u64 = 300;

/// Both ways in which an input begins.
const BOTH: [Loading; 2] = [Loading::AtZero, Loading::AtDate];

/// The cuts of a kind's inputs, with where calls start and where the input ends.
fn cut_inputs(loading: Loading, kind: &Kind) -> Vec<(Vec<usize>, usize, usize)> {
    let seeds = (0..SEEDS).step_by(EVERY as usize);
    let cut = |seed| {
        let input = kind.input_as(loading, seed);
        let parts = loading.split(&input).and_then(|(_, rest)| split(rest));
        let calls = parts.map_or(0, |(_, calls)| calls.len());
        let cuts = cuts(loading, kind, seed, &input);
        (cuts, input.len() - calls, input.len())
    };
    seeds.map(cut).collect()
}

/// In how many inputs of a kind some cut fits; it is given with the calls' start.
fn count(loading: Loading, name: &str, fits: impl Fn(usize, usize) -> bool) -> usize {
    let kind = kind_named(name).expect("the kind exists");
    let cut = cut_inputs(loading, kind);
    let inputs = cut.iter();
    let fitting = inputs.filter(|(cuts, start, _)| cuts.iter().any(|&cut| fits(cut, *start)));
    fitting.count()
}

#[test]
fn cuts_rise_within_the_input() {
    for (loading, kind) in BOTH
        .iter()
        .flat_map(|it| KINDS.iter().map(|kind| (*it, kind)))
    {
        for (cuts, _, end) in cut_inputs(loading, kind) {
            assert!(cuts.is_sorted_by(|one, next| one < next));
            assert!(cuts.iter().all(|&cut| 0 < cut && cut < end));
        }
        let whole = kind.input_as(loading, EVERY + 1);
        assert!(cuts(loading, kind, EVERY + 1, &whole).is_empty());
    }
}

#[test]
fn length_sheet_and_first_call_are_cut() {
    let all = SEEDS.div_ceil(EVERY) as usize;
    for loading in BOTH {
        let date = loading.date_bytes();
        for name in ["one_clock", "full_sheet", "course", "many_calls"] {
            assert_eq!(count(loading, name, |cut, _| cut == date + 1), all);
            let in_sheet = |cut, start| date + 2 < cut && cut < start;
            assert_eq!(count(loading, name, in_sheet), all);
            let in_first_call = |cut, start| start < cut && cut < start + CALL;
            assert_eq!(count(loading, name, in_first_call), all);
        }
    }
}

#[test]
fn loading_dates_are_cut() {
    for place in 1..4 {
        let cut_here = |cut, _| cut == place;
        let found = KINDS
            .iter()
            .map(|kind| count(Loading::AtDate, kind.name, cut_here));
        assert!(found.sum::<usize>() >= 25);
    }
}

#[test]
fn later_blocks_are_cut() {
    const BYTES: usize = BLOCK * CALL;
    let in_call = |cut, start| cut > start + BYTES && (cut - start) % CALL > 0;
    assert!(count(Loading::AtZero, "many_calls", in_call) >= 3);
    let in_block = |cut, start| cut > start + BYTES && (cut - start) % BYTES > 0;
    assert!(count(Loading::AtZero, "many_calls", in_block) >= 6);
}

#[test]
fn pieces_join_to_the_input() {
    for cuts in [vec![], vec![1], vec![1, 2, 5]] {
        let mut out = Vec::new();
        feed(&mut out, b"desk input", &cuts).expect("a list takes all bytes");
        assert_eq!(out, b"desk input");
    }
}
