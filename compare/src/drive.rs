//! A console, or a bench, driven by a script over pipes, and its answers held to the twin's; and what a twin does as a
//! program.

use crate::scripts::Script;
use std::io::{self, BufRead, Read, Write};
use std::path::Path;
use std::process::{Command, Stdio};
use std::thread;

/// Lines of a script: the console is started anew for each.
pub const SCRIPT: usize = 4_000;

/// The seed of script number `i` of a run.
pub fn seed_of(run: u64, i: u64) -> u64 {
    run.wrapping_mul(1_000_003).wrapping_add(i)
}

pub fn text(lines: &[Vec<u8>]) -> Vec<u8> {
    let mut text = Vec::new();
    for line in lines {
        text.extend_from_slice(line);
        text.push(b'\n');
    }
    text
}

/// Answers the lines of standard input on standard output, to the end of the input.
pub fn serve(mut answer: impl FnMut(&[u8]) -> String) -> io::Result<()> {
    let mut input = io::BufReader::with_capacity(1 << 16, io::stdin().lock());
    let mut out = io::BufWriter::new(io::stdout().lock());
    let mut line = Vec::new();
    while input.read_until(b'\n', &mut line)? > 0 {
        if line.last() == Some(&b'\n') {
            line.pop();
        }
        writeln!(out, "{}", answer(&line))?;
        // At a terminal, or behind a program that waits for the answer, nothing more is at hand.
        if input.buffer().is_empty() {
            out.flush()?;
        }
        line.clear();
    }
    out.flush()
}

/// What a console prints for a script, by lines. One that ends early answers fewer.
pub fn answers(console: &Path, script: &Script) -> io::Result<Vec<Vec<u8>>> {
    let mut child = Command::new(console)
        .stdin(Stdio::piped())
        .stdout(Stdio::piped())
        .stderr(Stdio::null())
        .spawn()?;
    let mut input = child.stdin.take().expect("it is piped");
    let mut output = child.stdout.take().expect("it is piped");
    let mut bytes = text(&script.lines);
    // The last line may lack its newline, and in every other script it does.
    if script.lines.len() % 2 == 1 && script.lines.last().is_some_and(|line| !line.is_empty()) {
        bytes.pop();
    }
    // A console that ends early breaks the pipe; the lines that lack show it.
    let writer = thread::spawn(move || {
        let _ = input.write_all(&bytes);
    });
    let mut printed = Vec::new();
    output.read_to_end(&mut printed)?;
    writer.join().expect("the writer does not panic");
    child.wait()?;
    let mut answers: Vec<Vec<u8>> = printed.split(|&b| b == b'\n').map(<[u8]>::to_vec).collect();
    // Behind the last newline there is nothing.
    if answers.last().is_some_and(Vec::is_empty) {
        answers.pop();
    }
    Ok(answers)
}

/// The lines that were answered otherwise, or not, or that were answered and not asked.
pub fn differences(script: &Script, answers: &[Vec<u8>]) -> Vec<usize> {
    (0..script.answers.len().max(answers.len()))
        .filter(|&i| {
            script.answers.get(i).map(String::as_bytes) != answers.get(i).map(Vec::as_slice)
        })
        .collect()
}

/// A line as it is shown, its first 300 characters where it is long.
pub fn shortened(line: &[u8]) -> String {
    let text = String::from_utf8_lossy(line);
    match text.char_indices().nth(300) {
        Some((end, _)) => format!("{} .. ({} bytes)", &text[..end], line.len()),
        None => text.into_owned(),
    }
}
