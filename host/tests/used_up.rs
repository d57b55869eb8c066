//! The inputs that use up the numbers: that they show the limit, and that it is
//! seen where one does not.

mod common;

use common::first_call;
use host::desk::{run_with, CALL};
use host::fast::Monitor;
use host::generate::{kind_named, Kind, KINDS, ONCE};

/// The input of a kind, with its lines.
fn input_and_lines(kind: &Kind) -> (Vec<u8>, String) {
    let input = kind.input(0);
    let lines = run_with::<Monitor>(&input);
    (input, lines)
}

fn shows(kind: &Kind, input: &[u8], lines: &str) -> bool {
    let look = kind.look.expect("the kind has one input");
    look(input, lines).is_ok()
}

/// The lines with a part of the last ones changed.
fn changed(lines: &str, from: &str, to: &str) -> String {
    // All that comes after the last number is among the last lines.
    let (front, end) = lines.split_at(lines.len() - 3000);
    assert!(end.contains(from), "{from}");
    format!("{front}{}", end.replacen(from, to, 1))
}

#[test]
fn one_input_for_all_seeds() {
    for kind in ONCE {
        assert_eq!(kind.input(0), kind.input(1));
        assert!(kind.seeds(7, 300).eq([0]));
        assert_eq!(kind.seeds(7, 0).count(), 0);
        assert!(kind_named(kind.name).is_some());
    }
    for kind in KINDS {
        assert!(kind.look.is_none());
        assert!(kind.seeds(7, 3).eq([7, 8, 9]));
    }
}

#[test]
fn the_limit_is_shown() {
    for kind in ONCE {
        let (input, lines) = input_and_lines(kind);
        assert!(shows(kind, &input, &lines), "{}", kind.name);
        assert!(!shows(kind, &input, ""));
    }
}

#[test]
fn wrong_lines_are_seen() {
    for kind in ONCE {
        let (input, lines) = input_and_lines(kind);
        let lamp = if kind.name == "used_up_lit" { 1 } else { 0 };
        let s5 = format!("refused S-5 lamp {lamp}");
        for other in ["dropped", "held 1", "scheduled 1 9", "refused S-4"] {
            let wrong = changed(&lines, &s5, &format!("{other} lamp {lamp}"));
            assert!(!shows(kind, &input, &wrong), "{}: {other}", kind.name);
        }
        let early = lines.replacen("\n7 dropped", "\n7 refused S-5", 1);
        assert!(early != lines && !shows(kind, &input, &early));
        let none = lines.replace("refused S-5", "refused S-1");
        assert!(!shows(kind, &input, &none));
    }
}

/// An offer less before the last number is seen, and an offer more where it
/// matters which one has the last number.
#[test]
fn other_inputs_are_seen() {
    for kind in ONCE {
        let (input, lines) = input_and_lines(kind);
        let mut lines = lines.lines().skip(1);
        let dropped = lines.position(|line| line.contains(" dropped "));
        let place = first_call(&input) + CALL * dropped.expect("an offer is dropped");
        let (front, after) = (&input[..place], &input[place + CALL..]);
        let less = [front, after].concat();
        assert!(!shows(kind, &less, &run_with::<Monitor>(&less)));
        let more = [front, &input[place..place + CALL], &input[place..]].concat();
        let any_offer = kind.name == "used_up_lit";
        assert_eq!(shows(kind, &more, &run_with::<Monitor>(&more)), any_offer);
    }
}
