//! Random scripts for a console, its answers compared with the twin's, line by line.
//!
//!     differ [--console PATH] [--seed N] [--lines N] [--tally] [--script SEED]
//!
//! The first difference ends the run, with exit status 1. `--script` prints the script of a seed.

use compare::differ::differ;
use compare::sides::CONSOLE;
use std::process::ExitCode;

fn main() -> ExitCode {
    differ(&CONSOLE)
}
