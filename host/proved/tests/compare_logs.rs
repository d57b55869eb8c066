//! The command `compare_logs` as it is run.

mod common;

use common::{call, counted, lists, tells_usage, text, COMPARE_LOGS};
use host::log::KINDS;

#[test]
fn all_kinds() {
    let output = call(COMPARE_LOGS, &["100"], &[]);
    let text = text(&output.stdout);
    assert!(output.status.success(), "{text}");
    let start = format!("no difference: {} logs, ", 100 * KINDS.len());
    assert!(text.starts_with(&start), "{text}");
    let answers = [
        "dates to gaps: converted",
        "dates to gaps: I-9",
        "dates to gaps: I-10",
        "dates to gaps: I-11",
        "gaps to dates: converted",
        "gaps to dates: I-9",
        "gaps to dates: I-10",
    ];
    counted(&text, &answers.map(String::from));
}

#[test]
fn named_kinds_and_seeds() {
    let output = call(COMPARE_LOGS, &["100", "7", "dates", "short_lengths"], &[]);
    assert!(output.status.success());
    assert!(text(&output.stdout).starts_with("no difference: 200 logs, "));
    // Few logs need not show every answer.
    let output = call(COMPARE_LOGS, &["1", "18446744073709551615"], &[]);
    assert!(output.status.success());
    let output = call(COMPARE_LOGS, &["0"], &[]);
    assert!(text(&output.stdout).starts_with("no difference: 0 logs, 0 records\n"));
}

#[test]
fn kinds_are_listed() {
    lists(COMPARE_LOGS, KINDS.iter().map(|kind| kind.name));
}

#[test]
fn wrong_arguments() {
    tells_usage(COMPARE_LOGS, "usage: compare_logs SEEDS ", "dates");
}
