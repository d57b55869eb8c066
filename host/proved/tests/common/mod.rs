//! Helpers that several tests share.
#![allow(dead_code)]

use std::io::Write;
use std::path::{Path, PathBuf};
use std::process::{Command, Output, Stdio};
use std::thread;

pub const CONVERT: &str = env!("CARGO_BIN_EXE_convert");
pub const JOIN: &str = env!("CARGO_BIN_EXE_join");
pub const COMPARE_LOGS: &str = env!("CARGO_BIN_EXE_compare_logs");
pub const COMPARE_SHEETS: &str = env!("CARGO_BIN_EXE_compare_sheets");

/// The repository's root.
pub fn root() -> PathBuf {
    Path::new(env!("CARGO_MANIFEST_DIR")).join("../..")
}

/// A file of the tests' own with these bytes.
pub fn file(name: &str, bytes: &[u8]) -> PathBuf {
    let path = Path::new(env!("CARGO_TARGET_TMPDIR")).join(name);
    std::fs::write(&path, bytes).expect("the file is written");
    path
}

/// Runs a program on an input.
pub fn call(program: &str, arguments: &[&str], input: &[u8]) -> Output {
    call_in(Path::new("."), program, arguments, input)
}

/// Runs a program in a folder.
pub fn call_in(folder: &Path, program: &str, arguments: &[&str], input: &[u8]) -> Output {
    let mut command = Command::new(program);
    command.args(arguments).current_dir(folder);
    let pipes = command.stdin(Stdio::piped()).stdout(Stdio::piped());
    let mut child = pipes
        .stderr(Stdio::piped())
        .spawn()
        .expect("the program runs");
    let stdin = child.stdin.take();
    thread::scope(|scope| {
        scope.spawn(move || {
            // A program may end without reading.
            stdin.map(|mut stdin| stdin.write_all(input));
        });
        child.wait_with_output().expect("the program ends")
    })
}

pub fn text(bytes: &[u8]) -> String {
    String::from_utf8_lossy(bytes).into_owned()
}

/// Checks that after its first line a summary has these names, each with a count
/// that is not 0.
pub fn counted(summary: &str, names: &[String]) {
    let lines: Vec<&str> = summary.lines().skip(1).map(str::trim_start).collect();
    assert_eq!(lines.len(), names.len());
    for (line, expected) in lines.iter().zip(names) {
        let (count, name) = line.split_once("  ").expect("a count and a name");
        assert_eq!(name, expected);
        assert!(count.parse::<u64>().is_ok_and(|count| count > 0), "{line}");
    }
}

/// Checks that a comparison lists these kinds.
pub fn lists(program: &str, kinds: impl IntoIterator<Item = &'static str>) {
    let output = call(program, &["--list"], &[]);
    let names = kinds.into_iter().map(|name| format!("{name}\n"));
    assert_eq!(text(&output.stdout), names.collect::<String>());
    assert!(output.status.success());
}

/// Checks that a comparison with a kind of this name tells its usage where its
/// arguments are wrong.
pub fn tells_usage(program: &str, usage: &str, kind: &str) {
    let cases: [&[&str]; 8] = [
        &[],
        &["many"],
        &["-1"],
        &["10", "first"],
        &["10", kind],
        &["10", "0", "no_such_kind"],
        &["10", "0", kind, "--list"],
        &["--list", kind],
    ];
    for arguments in cases {
        let output = call(program, arguments, &[]);
        assert_eq!(output.status.code(), Some(2), "{arguments:?}");
        assert!(text(&output.stderr).starts_with(usage));
        assert!(output.stdout.is_empty());
    }
}
