//! The box written for speed against the reference, over inputs of every kind
//! and on the benchmark's heaviest sheets.

use host::bench::{KINDS as HEAVY, LOADING, SHORT, WORST};
use host::desk::run_as;
use host::generate::KINDS;
use host::loading::Loading;
use host::{fast, monitor};

/// Seeds per kind; other ones than those of the gate, mostly.
const SEEDS: std::ops::Range<u64> = 250..370;

fn same(name: &str, loading: Loading, input: &[u8]) {
    let expected = run_as::<monitor::Monitor>(loading, input);
    let found = run_as::<fast::Monitor>(loading, input);
    let mut lines = expected.lines().zip(found.lines());
    if let Some((expected, found)) = lines.find(|(expected, found)| expected != found) {
        panic!("{name}: {found} instead of {expected}");
    }
    assert_eq!(expected.len(), found.len(), "{name}");
}

#[test]
fn same_lines_for_every_kind() {
    for kind in KINDS {
        for seed in SEEDS {
            let name = format!("{}, seed {seed}", kind.name);
            for loading in [Loading::AtZero, Loading::AtDate] {
                same(&name, loading, &kind.input_as(loading, seed));
            }
        }
    }
}

#[test]
fn same_lines_in_the_benchmark() {
    // The reference is too slow for all calls of some kinds.
    let heavy = HEAVY.iter().chain(SHORT).chain(WORST).chain(LOADING);
    for kind in heavy.filter(|kind| kind.few > 2) {
        for input in kind.inputs(kind.short) {
            same(kind.name, Loading::AtZero, &input.whole);
        }
    }
}
