//! Random scripts for a bench, its answers compared with the twin's, line by line.
//!
//!     bench_differ [--bench PATH] [--seed N] [--lines N] [--tally] [--script SEED]
//!
//! The first difference ends the run, with exit status 1. `--script` prints the script of a seed.

use compare::differ::differ;
use compare::sides::BENCH;
use std::process::ExitCode;

fn main() -> ExitCode {
    differ(&BENCH)
}
