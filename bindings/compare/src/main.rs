//! Random scripts of the console, answered by the Rust crate `yotnaghez` and by the ordinary receiver, line by line.
//!
//!     bindings-compare [LINES [SEED]]
//!
//! What reaches past the crate is left out of the scripts: the lines that poke a state, that lend less than all of the
//! memory, and that look into it. The console in C answers those too.

mod console;
mod events;

use compare::console::words::without_return;
use compare::drive::{seed_of, SCRIPT};
use compare::scripts::generate;
use std::collections::BTreeMap;
use std::process::ExitCode;

/// Commands that the crate cannot answer.
const LEFT_OUT: [&str; 7] = ["poke", "lend", "area", "waits", "numbers", "store", "help"];

fn first_word(line: &[u8]) -> &[u8] {
    let line = without_return(line);
    line.split(|&b| b == b' ').next().unwrap_or(line)
}

fn main() -> ExitCode {
    let mut words = std::env::args().skip(1).map(|word| word.parse::<u64>());
    let lines = words
        .next()
        .unwrap_or(Ok(200_000))
        .expect("a number of lines") as usize;
    let seed = words.next().unwrap_or(Ok(1)).expect("a seed");
    let (mut compared, mut scripts) = (0, 0);
    let mut tally: BTreeMap<String, usize> = BTreeMap::new();
    while compared < lines {
        let script = generate(seed_of(seed, scripts), SCRIPT);
        scripts += 1;
        let mut twin = compare::console::Console::default();
        let mut console = console::Console::new();
        // A connection of the crate is open from the first, that of the console once it is started.
        let begun = script.lines.iter().skip_while(|line| *line != b"start");
        for line in begun.filter(|line| {
            !LEFT_OUT
                .iter()
                .any(|word| first_word(line) == word.as_bytes())
        }) {
            let (expected, answer) = (twin.answer(line), console.answer(line));
            if expected != answer {
                println!(
                    "script {}: {}",
                    seed_of(seed, scripts - 1),
                    String::from_utf8_lossy(line)
                );
                println!("  the ordinary receiver: {expected}\n  the crate: {answer}");
                return ExitCode::FAILURE;
            }
            compared += 1;
            let kind = String::from_utf8_lossy(first_word(line)).into_owned();
            let told = answer.split(' ').next().unwrap_or("").to_string();
            *tally.entry(format!("{kind}: {told}")).or_default() += 1;
        }
    }
    for wanted in WANTED {
        if !tally.contains_key(wanted) {
            println!("never came: {wanted}");
            return ExitCode::FAILURE;
        }
    }
    println!(
        "{scripts} scripts, {compared} lines: the crate answers as the ordinary receiver does"
    );
    ExitCode::SUCCESS
}

/// What a comparison has to meet: each call, answered and refused.
const WANTED: [&str; 37] = [
    "start: open",
    "step: used",
    "step: refused",
    "next: used",
    "next: refused",
    "value: store",
    "value: fallback",
    "value: refused",
    "pair: pair",
    "pair: refused",
    "walk: walk",
    "walk: refused",
    "say: wrote",
    "say: refused",
    "end: wrote",
    "end: refused",
    "owed: wrote",
    "owed: refused",
    "put: wrote",
    "put: refused",
    "finish: wrote",
    "finish: refused",
    "queue: waits",
    "queue: refused",
    "pump: pumped",
    "pump: refused",
    "active: active",
    "active: refused",
    "counts: counts",
    "list: list",
    "list: refused",
    "request: request",
    "request: refused",
    "reading: wrote",
    "read: used",
    "body: clean",
    "correct: count",
];
