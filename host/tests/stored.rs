//! The stored inputs of the desk program: the texts that they come from, what
//! is printed for them, and that they show what a block leaves to the next.

mod common;

use common::{bare_answer, first_call};
use host::desk::{self, CALL};
use host::generate::BLOCK;
use host::loading::Loading;
use host::monitor::Monitor;
use host::question::{encode, Checks};
use std::fs;
use std::ops::Range;
use std::path::{Path, PathBuf};

/// The folder of all crates.
fn crates() -> PathBuf {
    Path::new(env!("CARGO_MANIFEST_DIR")).join("../crates")
}

fn read(path: PathBuf) -> Vec<u8> {
    fs::read(&path).unwrap_or_else(|error| panic!("{}: {error}", path.display()))
}

fn stored_input(name: &str) -> Vec<u8> {
    read(crates().join(name).join("stdin"))
}

#[test]
fn inputs_come_from_texts() {
    for (name, text) in [
        ("desk", include_str!("../questions/example.txt")),
        ("desk_bare", include_str!("../questions/a.txt")),
        ("desk_block", include_str!("../questions/block.txt")),
        ("desk_tail", include_str!("../questions/tail.txt")),
        ("desk_largest", include_str!("../questions/largest.txt")),
    ] {
        let encoded = encode(text, Checks::All).expect("the text has no mistake");
        assert!(encoded == stored_input(name), "{name}");
    }
}

#[test]
fn refused_input_comes_from_a_text() {
    let text = include_str!("../questions/refused.txt");
    let encoded = encode(text, Checks::Bytes).expect("the bytes can express it");
    assert_eq!(encoded, stored_input("desk_refused"));
    // Two calls and two bytes get no line.
    assert_eq!(encoded.len() - first_call(&encoded), 2 * CALL + 2);
    assert_eq!(desk::run(&encoded), "sheet refused I-6\n");
}

#[test]
fn outputs_are_what_is_printed() {
    let folders = fs::read_dir(crates()).expect("the crates can be listed");
    let names = folders.map(|folder| folder.expect("a crate can be listed").file_name());
    let names = names.filter_map(|name| name.into_string().ok());
    let desks: Vec<String> = names.filter(|name| name.starts_with("desk")).collect();
    assert!(desks.len() >= 9, "{desks:?}");
    for name in desks {
        let stored = read(crates().join(&name).join("stdout"));
        let loading = if name.starts_with(Loading::AtDate.program()) {
            Loading::AtDate
        } else {
            Loading::AtZero
        };
        let printed = desk::run_as::<Monitor>(loading, &stored_input(&name));
        assert_eq!(String::from_utf8_lossy(&stored), printed, "{name}");
    }
}

#[test]
fn sizes_are_those_at_the_edges() {
    let block = stored_input("desk_block");
    assert_eq!(block.len() - first_call(&block), 2 * BLOCK * CALL);
    let tail = stored_input("desk_tail");
    assert!(tail.len() - first_call(&tail) > 3 * BLOCK * CALL);
    assert!(desk::run(&tail).ends_with("\ntail 3\n"));
    assert_eq!(first_call(&stored_input("desk_largest")), 2 + 518);
}

/// The answers of the block after some calls if these are left out.
fn answers_without(input: &[u8], calls: Range<usize>) -> Vec<String> {
    let place = |call| first_call(input) + CALL * call;
    let kept = [&input[..place(calls.start)], &input[place(calls.end)..]];
    let output = desk::run(&kept.concat());
    // The numbers are other ones where calls are left out.
    let answers = output.lines().filter_map(bare_answer);
    answers.skip(1 + calls.start).take(BLOCK).collect()
}

/// Wrong programs that go on from a fresh box at a block's end, from the box
/// before the block, or from the box before its last call.
#[test]
fn each_block_needs_the_box_of_the_one_before() {
    for (name, ends) in [("desk_block", 1..=1), ("desk_tail", 1..=3)] {
        let input = stored_input(name);
        for end in ends.map(|blocks| blocks * BLOCK) {
            let right = answers_without(&input, end..end);
            for start in [0, end - BLOCK, end - 1] {
                let wrong = answers_without(&input, start..end);
                assert_eq!(wrong.len(), right.len());
                assert_ne!(wrong, right, "{name}: calls {start} to {end}");
            }
        }
    }
}
