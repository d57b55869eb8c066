//! Reads the desk program's input and prints what the desk program prints. With
//! `--at` the input begins with a loading date.

use host::desk::main_with;
use host::monitor::Monitor;
use std::process::ExitCode;

fn main() -> ExitCode {
    main_with::<Monitor>("reference")
}
