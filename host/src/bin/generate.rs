//! Writes one desk input of a kind to standard output, with a loading date before
//! it if asked for.

use host::generate::{kind_named, KINDS, ONCE};
use host::loading::Loading;
use std::io::{self, Write};
use std::process::ExitCode;

const USAGE: &str = "usage: generate [--at] KIND SEED\n       generate --list";

fn main() -> ExitCode {
    let arguments: Vec<String> = std::env::args_os()
        .skip(1)
        .map(|argument| argument.to_string_lossy().into_owned())
        .collect();
    let bytes = match Loading::parse(&arguments) {
        (Loading::AtZero, [list]) if list == "--list" => Ok(list_of_kinds()),
        (loading, [kind, seed]) => input(loading, kind, seed),
        _ => Err(USAGE.into()),
    };
    match bytes {
        Ok(bytes) => write(&bytes),
        Err(message) => {
            eprintln!("{message}");
            ExitCode::from(2)
        }
    }
}

fn list_of_kinds() -> Vec<u8> {
    let kinds = KINDS.iter().chain(ONCE);
    let names = kinds.map(|kind| format!("{}\n", kind.name));
    names.collect::<String>().into_bytes()
}

fn input(loading: Loading, kind: &str, seed: &str) -> Result<Vec<u8>, String> {
    let kind = kind_named(kind).ok_or_else(|| format!("generate: no kind {kind:?}\n{USAGE}"))?;
    if !kind.begins(loading) {
        let name = kind.name;
        return Err(format!("generate: {name} has no loading date\n{USAGE}"));
    }
    let seed = seed
        .parse()
        .map_err(|_| format!("generate: {seed:?} is no seed\n{USAGE}"))?;
    Ok(kind.input_as(loading, seed))
}

fn write(bytes: &[u8]) -> ExitCode {
    let mut out = io::stdout().lock();
    match out.write_all(bytes).and_then(|()| out.flush()) {
        Ok(()) => ExitCode::SUCCESS,
        Err(error) => {
            eprintln!("generate: {error}");
            ExitCode::FAILURE
        }
    }
}
