//! Prints what `reference` prints, worked out by the box written for speed.

use host::desk::main_with;
use host::fast::Monitor;
use std::process::ExitCode;

fn main() -> ExitCode {
    main_with::<Monitor>("fast")
}
