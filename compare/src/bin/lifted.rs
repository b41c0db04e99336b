//! Lifts a request out of the capture on standard input.
//!
//!     lifted ID < capture > copy
//!
//! The copy goes to standard output. To standard error goes one line: `clean`, `cut`, or `closed N at OFFSET`; and
//! `refused 3` for id 0. Exit status 2 where it is called wrong.

use compare::console::words::id;
use compare::lift::said;
use std::io::{self, Read, Write};
use std::process::ExitCode;

fn main() -> io::Result<ExitCode> {
    let words: Vec<String> = std::env::args().skip(1).collect();
    let [Some(id)] = words.iter().map(|word| id(word)).collect::<Vec<_>>()[..] else {
        eprintln!("usage: lifted ID < capture > copy");
        return Ok(ExitCode::from(2));
    };
    let mut capture = Vec::new();
    io::stdin().read_to_end(&mut capture)?;
    let said = said(&capture, id);
    let mut out = io::stdout().lock();
    out.write_all(&said.copy)?;
    out.flush()?;
    eprintln!("{}", said.line);
    Ok(ExitCode::SUCCESS)
}
