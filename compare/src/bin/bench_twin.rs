//! The twin of the bench: commands from standard input, an answer for each on standard output.

use compare::bench::Bench;
use compare::drive::serve;

fn main() -> std::io::Result<()> {
    let mut bench = Bench::default();
    serve(|line| bench.answer(line))
}
