//! Two shuffles of one set of requests on a console, compared request by request, in many rounds.
//!
//!     shuffles [--console PATH] [--seed N] [--rounds N]

use compare::rounds::rounds;
use compare::shuffles::Round;
use std::process::ExitCode;

fn main() -> ExitCode {
    rounds::<Round>("shuffles")
}
