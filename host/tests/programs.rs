//! The programs as they are run: arguments, output and exit status.

mod common;

use common::{call_with, input, input_at};
use host::compare::run;
use host::course::A;
use host::generate::{KINDS, ONCE};
use host::pieces::EVERY;
use std::path::{Path, PathBuf};
use std::process::{Command, Output};

const REFERENCE: &str = env!("CARGO_BIN_EXE_reference");
const FAST: &str = env!("CARGO_BIN_EXE_fast");
const GENERATE: &str = env!("CARGO_BIN_EXE_generate");
const COMPARE: &str = env!("CARGO_BIN_EXE_compare");

fn call(program: &str, arguments: &[&str]) -> Output {
    let output = Command::new(program).args(arguments).output();
    output.expect("the program runs")
}

fn text(bytes: &[u8]) -> String {
    String::from_utf8_lossy(bytes).into_owned()
}

#[test]
fn lines_are_printed() {
    let input = input(A, &[(0, 1), (1, 4)]);
    for program in [REFERENCE, FAST] {
        let output = run(Path::new(program), &input, &[]).expect("the program runs");
        let expected = "sheet 2 1 2 4 2\n1 scheduled 1 1 lamp 0\n2 scheduled 1 4 lamp 0\n";
        assert_eq!(text(&output.stdout), expected);
        assert!(output.status.success());
        let output = run(Path::new(program), &[], &[]).expect("the program runs");
        assert_eq!(text(&output.stdout), "sheet refused I-1\n");
    }
}

#[test]
fn lines_at_a_loading_date() {
    let input = input_at(43_200, A, &[(0, 43_199), (1, 43_204), (1, 43_205)]);
    let expected = "sheet 2 1 2 4 2\n1 refused S-1 lamp 0\n\
        2 scheduled 1 43204 lamp 0\n3 scheduled 1 43209 lamp 0\n";
    for program in [REFERENCE, FAST] {
        let output = |input: &[u8]| text(&call_with(program, &["--at"], input).stdout);
        assert_eq!(output(&input), expected);
        assert_eq!(
            output(&input_at(1_000_000_001, A, &[])),
            "sheet refused I-8\n"
        );
        assert_eq!(output(&[0; 3]), "sheet refused I-1\n");
    }
}

#[test]
fn generate_writes_loading_dates() {
    for kind in KINDS {
        let output = call(GENERATE, &["--at", kind.name, "12"]);
        assert!(output.status.success());
        assert_eq!(output.stdout, kind.input_at(12));
    }
}

#[test]
fn generate_writes_inputs() {
    let list = text(&call(GENERATE, &["--list"]).stdout);
    assert!(list.lines().any(|line| line == "long_pending"));
    for kind in KINDS.iter().chain(ONCE) {
        assert!(list.lines().any(|line| line == kind.name));
        let output = call(GENERATE, &[kind.name, "12"]);
        assert!(output.status.success());
        assert_eq!(output.stdout, kind.input(12));
    }
}

#[test]
fn wrong_arguments() {
    let cases: [(&str, &[&str]); 21] = [
        (REFERENCE, &["extra"]),
        (REFERENCE, &["--at", "5"]),
        (FAST, &["extra"]),
        (FAST, &["--at", "--at"]),
        (GENERATE, &["--at"]),
        (GENERATE, &["--at", "--list"]),
        (GENERATE, &["--at", "used_up", "1"]),
        (COMPARE, &["--at"]),
        (COMPARE, &["--at", "program"]),
        (COMPARE, &["--at", REFERENCE, "1", "0", "used_up"]),
        (GENERATE, &[]),
        (GENERATE, &["one_clock"]),
        (GENERATE, &["no_such_kind", "1"]),
        (GENERATE, &["one_clock", "x"]),
        (GENERATE, &["one_clock", "1", "2"]),
        (COMPARE, &[]),
        (COMPARE, &["program"]),
        (COMPARE, &["program", "many"]),
        (COMPARE, &["program", "1", "one_clock"]),
        (COMPARE, &[REFERENCE, "1", "0", "no_such_kind"]),
        (COMPARE, &["/no/such/program", "1"]),
    ];
    for (program, arguments) in cases {
        let output = call(program, arguments);
        assert_eq!(output.status.code(), Some(2), "{program} {arguments:?}");
        assert!(text(&output.stderr).contains("usage"));
        assert!(output.stdout.is_empty());
    }
}

#[test]
fn compare_all_kinds() {
    let output = call(COMPARE, &[FAST, "3", "100"]);
    let text = text(&output.stdout);
    assert!(output.status.success(), "{text}");
    let inputs = 3 * KINDS.len();
    assert!(text.starts_with(&format!("no difference: {inputs} inputs, ")));
    assert!(text.contains("lamp 0") && text.contains("lamp 1"));
    // One input of each, whatever the number of seeds.
    let once = ONCE.len();
    let title = format!("\nno difference: {once} inputs that use up the numbers, ");
    let (random, used_up) = text.split_once(&title).expect("they are compared too");
    assert!(used_up.contains("  refused S-5\n") && !random.contains("S-5"));
}

#[test]
fn compare_named_kinds() {
    let output = call(COMPARE, &[REFERENCE, "3", "100", "bad_sheet", "truncated"]);
    assert!(output.status.success());
    assert!(text(&output.stdout).starts_with("no difference: 6 inputs"));
    let output = call(COMPARE, &[REFERENCE, "2", "7", "many_calls"]);
    let text = text(&output.stdout);
    assert!(text.starts_with("no difference: 2 inputs"));
    assert!(text.contains("2  sheet loaded"), "{text}");
    assert!(!text.contains("that use up the numbers"));
}

/// One input, however many seeds there are.
#[test]
fn compare_a_kind_with_one_input() {
    for seeds in ["1", "5"] {
        let output = call(COMPARE, &[REFERENCE, seeds, "9", "used_up_lit"]);
        let text = text(&output.stdout);
        assert!(output.status.success(), "{text}");
        assert!(text.starts_with("no difference: 1 inputs that use up the numbers, "));
    }
}

/// Writes a shell script that runs the reference and changes its lines.
#[cfg(unix)]
fn script(name: &str, body: &str) -> PathBuf {
    use std::os::unix::fs::PermissionsExt;
    let folder = Path::new(env!("CARGO_TARGET_TMPDIR"));
    let path = folder.join(name);
    std::fs::write(&path, format!("#!/bin/sh\n{body}\n")).expect("the script is written");
    let mode = std::fs::Permissions::from_mode(0o755);
    std::fs::set_permissions(&path, mode).expect("the script can be run");
    path
}

/// Runs a comparison with a script and gives what it printed.
#[cfg(unix)]
fn compare_with(name: &str, body: &str) -> String {
    let path = script(name, body);
    let output = call(COMPARE, &[&path.to_string_lossy(), "20"]);
    assert_eq!(output.status.code(), Some(1));
    text(&output.stdout)
}

#[cfg(unix)]
#[test]
fn compare_with_loading_dates() {
    let path = script("dated.sh", &format!("exec '{FAST}' --at"));
    let output = call(COMPARE, &["--at", &path.to_string_lossy(), "3", "120"]);
    let text = text(&output.stdout);
    assert!(output.status.success(), "{text}");
    let inputs = 3 * KINDS.len();
    assert!(text.starts_with(&format!("no difference: {inputs} inputs, ")));
    assert!(text.contains("  loading date 0\n") && text.contains("  sheet refused I-8\n"));
    assert!(!text.contains("that use up the numbers"));
    // A program that reads no date is seen, and one that wants a date where none is.
    for (flags, program) in [(&["--at"][..], REFERENCE), (&[], &path.to_string_lossy())] {
        let output = call(COMPARE, &[flags, &[program, "20"]].concat());
        assert_eq!(output.status.code(), Some(1));
        remove_input(&self::text(&output.stdout));
    }
}

/// Where a comparison left the input that differs.
#[cfg(unix)]
fn input_path(text: &str) -> &str {
    let path = text.lines().find_map(|line| line.strip_prefix("input: "));
    path.expect("the input was written")
}

#[cfg(unix)]
fn remove_input(text: &str) {
    std::fs::remove_file(input_path(text)).expect("the input can be removed");
}

#[cfg(unix)]
#[test]
fn compare_with_a_wrong_lamp() {
    let body = format!("'{REFERENCE}' | sed 's/lamp 1/lamp 0/'");
    let text = compare_with("wrong-lamp.sh", &body);
    assert!(text.starts_with("difference: kind one_clock, seed "));
    assert!(text.contains("first line that differs: "));
    assert!(text.contains("lamp 1\\n\"\n  found: "));
    // The input is at hand and shows the difference again.
    let input = std::fs::read(input_path(&text)).expect("the input can be read");
    assert!(host::desk::run(&input).contains("lamp 1"));
    remove_input(&text);
}

/// A program that takes what one read gives for the whole input.
#[cfg(unix)]
#[test]
fn compare_with_a_single_read() {
    let body = format!("dd bs=100000 count=1 2>/dev/null | '{REFERENCE}'");
    let path = script("single-read.sh", &body);
    let path = path.to_string_lossy();
    // Whole inputs come in one read, all seeds from 1 on that are not cut.
    let whole = (EVERY - 1).to_string();
    let output = call(COMPARE, &[&path, &whole, "1", "course"]);
    assert!(output.status.success());
    // A slow start may join the pieces of one input, not those of ten.
    let many = (10 * EVERY).to_string();
    let output = call(COMPARE, &[&path, &many, "0", "course"]);
    assert_eq!(output.status.code(), Some(1));
    let text = text(&output.stdout);
    assert!(text.contains("the input had pauses after bytes [1, "));
    remove_input(&text);
}

#[cfg(unix)]
#[test]
fn compare_with_silence_and_more() {
    let cases = [
        ("silent.sh", "true", "expected: \"sheet "),
        ("no-end.sh", "printf 'sheet'", "found:    \"sheet\""),
        ("broken-off.sh", "kill -9 $$", "signal"),
    ];
    let extra = format!("'{REFERENCE}'; echo more");
    let more = ("more.sh", extra.as_str(), "expected: (no line)");
    for (name, body, expected) in cases.into_iter().chain([more]) {
        let text = compare_with(name, body);
        assert!(text.contains(expected), "{text}");
        remove_input(&text);
    }
}
