//! Compares the proved library's joining of sheets with the second program's over
//! random pairs, and the joined sheets with both sheets over random timed words.

use host::product::compare::{compare, Summary};
use host::product::{Kind, KINDS};
use host::seeds::Seeds;
use proved::comparison::Comparison;
use proved::library::Proved;
use std::process::ExitCode;

fn main() -> ExitCode {
    let comparison = Comparison {
        name: "compare_sheets",
        kinds: KINDS,
        inputs: "pairs",
    };
    let run = |seeds: &Seeds<&'static Kind>| {
        let kinds = seeds.kinds.iter().copied();
        compare(&Proved, kinds, seeds.first, seeds.count)
    };
    comparison.run(run, Summary::missing)
}
