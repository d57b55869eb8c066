//! Measures a desk program against the reference and against the program
//! written for speed, as ratios within one run, or writes the inputs of that.

use host::bench::{report, write_inputs, Programs, Stop};
use std::ffi::OsString;
use std::io;
use std::path::{Path, PathBuf};
use std::process::ExitCode;

const USAGE: &str = "usage: bench PROGRAM [--instructions]
       bench --inputs FOLDER (writes its inputs, with few calls, to files there)";

fn main() -> ExitCode {
    let arguments: Vec<OsString> = std::env::args_os().skip(1).collect();
    if let [flag, folder] = arguments.as_slice() {
        if flag == "--inputs" {
            return write(Path::new(folder));
        }
    }
    let Some((program, counting)) = parse(&arguments) else {
        eprintln!("{USAGE}");
        return ExitCode::from(2);
    };
    measure(program, counting)
}

/// Writes the inputs.
fn write(folder: &Path) -> ExitCode {
    match write_inputs(folder) {
        Ok(()) => ExitCode::SUCCESS,
        Err(error) => {
            eprintln!("bench: the inputs cannot be written: {error}\n{USAGE}");
            ExitCode::from(2)
        }
    }
}

/// Measures and prints the tables.
fn measure(program: &Path, counting: bool) -> ExitCode {
    let programs = match programs(program) {
        Ok(programs) => programs,
        Err(error) => {
            eprintln!("bench: the others are not next to bench: {error}\n{USAGE}");
            return ExitCode::from(2);
        }
    };
    match report(&programs, counting, &mut io::stdout()) {
        Ok(()) => ExitCode::SUCCESS,
        Err(Stop::Difference(difference)) => {
            println!("{difference}");
            ExitCode::FAILURE
        }
        Err(stop) => {
            eprintln!("bench: {stop}\n{USAGE}");
            ExitCode::from(2)
        }
    }
}

/// The program, and whether instructions are to be counted.
fn parse(arguments: &[OsString]) -> Option<(&Path, bool)> {
    let is_flag = |argument: &OsString| argument.as_encoded_bytes().starts_with(b"-");
    match arguments {
        [program] if !is_flag(program) => Some((Path::new(program), false)),
        [program, flag] | [flag, program] if flag == "--instructions" && !is_flag(program) => {
            Some((Path::new(program), true))
        }
        _ => None,
    }
}

/// The program and those to measure it against.
fn programs(program: &Path) -> io::Result<Programs> {
    Ok(Programs {
        program: program.to_path_buf(),
        reference: neighbour("reference")?,
        fast: neighbour("fast")?,
    })
}

/// A program that lies next to this one.
fn neighbour(name: &str) -> io::Result<PathBuf> {
    let name = format!("{name}{}", std::env::consts::EXE_SUFFIX);
    let path = std::env::current_exe()?.with_file_name(name);
    path.metadata().map(|_| path)
}
