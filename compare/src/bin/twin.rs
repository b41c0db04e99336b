//! The twin of the console: commands from standard input, an answer for each on standard output.

use compare::console::Console;
use compare::drive::serve;

fn main() -> std::io::Result<()> {
    let mut console = Console::default();
    serve(|line| console.answer(line))
}
