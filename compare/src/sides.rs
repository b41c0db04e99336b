//! The two programs that are compared with a twin: the console for the station's end, the bench for the server's.

use crate::scripts::Script;
use crate::{bench_scripts, scripts, tally};

pub struct Side {
    /// The program is `crates/NAME/out/NAME`, and the option that names another one is `--NAME`.
    pub name: &'static str,
    /// A random script of a seed, of about so many lines.
    pub generate: fn(u64, usize) -> Script,
    /// What is tallied of a line and its answer.
    pub kinds: fn(&[u8], &str) -> Vec<String>,
    /// The kinds that a complete comparison has to meet.
    pub wanted: fn() -> Vec<String>,
    /// The twin's program in `src/bin`.
    pub twin: &'static str,
    /// Where in `planted/` and `allowed/` its edits are.
    pub edits: &'static str,
}

pub const CONSOLE: Side = Side {
    name: "console",
    generate: scripts::generate,
    kinds: tally::console::kinds,
    wanted: tally::console::wanted,
    twin: "twin",
    edits: "",
};

pub const BENCH: Side = Side {
    name: "bench",
    generate: bench_scripts::generate,
    kinds: tally::bench::kinds,
    wanted: tally::bench::wanted,
    twin: "bench_twin",
    edits: "server",
};
