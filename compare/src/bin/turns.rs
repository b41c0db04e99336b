//! Two runs that are the same to one request, each with its own turns of the pump, on a console, in many rounds.
//!
//!     turns [--console PATH] [--seed N] [--rounds N]

use compare::rounds::rounds;
use compare::turns::Round;
use std::process::ExitCode;

fn main() -> ExitCode {
    rounds::<Round>("turns")
}
