//! The command `compare_sheets` as it is run.

mod common;

use common::{call, counted, lists, tells_usage, text, COMPARE_SHEETS};
use host::product::KINDS;

#[test]
fn all_kinds() {
    let output = call(COMPARE_SHEETS, &["100"], &[]);
    let text = text(&output.stdout);
    assert!(output.status.success(), "{text}");
    let start = format!("no difference: {} pairs, ", 100 * KINDS.len());
    assert!(text.starts_with(&start), "{text}");
    let own = |which: &'static str| (1..=6).map(move |number| format!("I-{number} of {which}"));
    let mut names = vec![
        "joined".to_string(),
        "joined, as long as the output".to_string(),
    ];
    names.extend(own("the first sheet").chain(own("the second sheet")));
    let others = ["I-9", "I-12", "I-13, clocks", "I-13, locations", "I-14"];
    names.extend(others.map(String::from));
    let words = ["both sheets take", "only the first takes"];
    let more = ["only the second takes", "neither takes"];
    let words = words.into_iter().chain(more);
    names.extend(words.map(|who| format!("words that {who}")));
    counted(&text, &names);
}

#[test]
fn named_kinds_and_seeds() {
    let output = call(COMPARE_SHEETS, &["100", "7", "small", "two_clocks"], &[]);
    assert!(output.status.success());
    assert!(text(&output.stdout).starts_with("no difference: 200 pairs, "));
    // Few pairs need not show everything.
    let output = call(COMPARE_SHEETS, &["1", "18446744073709551615"], &[]);
    assert!(output.status.success());
    let output = call(COMPARE_SHEETS, &["0"], &[]);
    assert!(text(&output.stdout).starts_with("no difference: 0 pairs, 0 words\n"));
    assert!(output.status.success());
}

#[test]
fn kinds_are_listed() {
    lists(COMPARE_SHEETS, KINDS.iter().map(|kind| kind.name));
}

#[test]
fn wrong_arguments() {
    tells_usage(COMPARE_SHEETS, "usage: compare_sheets SEEDS ", "small");
}
