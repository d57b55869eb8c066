//! Compares the proved library's conversion of logs with the second program's
//! over random logs.

use host::log::compare::{compare, Summary};
use host::log::{Kind, KINDS};
use host::seeds::Seeds;
use proved::comparison::Comparison;
use proved::library::Proved;
use std::process::ExitCode;

fn main() -> ExitCode {
    let comparison = Comparison {
        name: "compare_logs",
        kinds: KINDS,
        inputs: "logs",
    };
    let run = |seeds: &Seeds<&'static Kind>| {
        let kinds = seeds.kinds.iter().copied();
        compare(&Proved, kinds, seeds.first, seeds.count)
    };
    comparison.run(run, Summary::missing)
}
