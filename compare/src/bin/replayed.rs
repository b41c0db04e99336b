//! Replays the capture on standard input, as the proved program does.

use compare::replay::replay;
use std::io::{self, Read};

fn main() -> io::Result<()> {
    let mut capture = Vec::new();
    io::stdin().read_to_end(&mut capture)?;
    print!("{}", replay(&capture, 1000));
    Ok(())
}
