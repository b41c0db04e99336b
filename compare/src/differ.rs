//! Random scripts for a program, its answers compared with the twin's, line by line.

use crate::drive::{answers, differences, seed_of, shortened, text, SCRIPT};
use crate::scripts::Script;
use crate::sides::Side;
use crate::tally::Tally;
use std::fs;
use std::io::{self, Write};
use std::path::PathBuf;
use std::process::ExitCode;
use std::sync::mpsc::sync_channel;
use std::thread;
use std::time::Instant;

/// Lines shown before a difference.
const SHOWN: usize = 15;
/// After so many lines it is said how far it is.
const PROGRESS: usize = 500_000;

struct Options {
    program: PathBuf,
    seed: u64,
    lines: usize,
    tally: bool,
}

/// The whole program: its options are the words behind its name.
pub fn differ(side: &'static Side) -> ExitCode {
    let mut options = Options {
        program: format!("crates/{0}/out/{0}", side.name).into(),
        seed: 1,
        lines: 200_000,
        tally: false,
    };
    let mut words = std::env::args().skip(1);
    while let Some(word) = words.next() {
        let mut argument = || words.next().unwrap_or_else(|| usage(side));
        let mut number = || argument().parse().unwrap_or_else(|_| usage(side));
        match word.as_str() {
            "--seed" => options.seed = number(),
            "--lines" => options.lines = number() as usize,
            "--script" => return print_script(side, number()),
            "--tally" => options.tally = true,
            _ if word.strip_prefix("--") == Some(side.name) => options.program = argument().into(),
            _ => usage(side),
        }
    }
    match run(side, &options) {
        Ok(true) => ExitCode::SUCCESS,
        Ok(false) => ExitCode::FAILURE,
        Err(error) => {
            eprintln!("differ: {}: {error}", options.program.display());
            ExitCode::from(2)
        }
    }
}

fn usage(side: &Side) -> ! {
    eprintln!(
        "options: [--{} PATH] [--seed N] [--lines N] [--tally] [--script SEED]",
        side.name
    );
    std::process::exit(2)
}

fn print_script(side: &Side, seed: u64) -> ExitCode {
    match io::stdout().write_all(&text(&(side.generate)(seed, SCRIPT).lines)) {
        Ok(()) => ExitCode::SUCCESS,
        Err(_) => ExitCode::FAILURE,
    }
}

/// Answers whether the program answered all lines as the twin did.
fn run(side: &'static Side, options: &Options) -> io::Result<bool> {
    let begun = Instant::now();
    let mut tally = Tally::new(side);
    let (mut scripts, mut lines, mut states, mut same) = (0, 0, 0, true);
    // The next scripts are made while the program answers.
    let (sender, made) = sync_channel(2);
    let (run, length) = (options.seed, SCRIPT.min(options.lines));
    thread::spawn(move || {
        (0..)
            .map(|i| (seed_of(run, i), (side.generate)(seed_of(run, i), length)))
            .try_for_each(|script| sender.send(script))
    });
    while same && lines < options.lines {
        let (seed, script) = made.recv().map_err(io::Error::other)?;
        let answers = answers(&options.program, &script)?;
        for (line, answer) in script.lines.iter().zip(&script.answers) {
            tally.count(line, answer);
        }
        scripts += 1;
        let before = lines / PROGRESS;
        lines += script.lines.len();
        if lines / PROGRESS > before && lines < options.lines {
            eprintln!(
                "  {} of {} lines",
                lines / PROGRESS * PROGRESS,
                options.lines
            );
        }
        states += script.states;
        if let Some(&first) = differences(&script, &answers).first() {
            show(&script, &answers, first, seed)?;
            same = false;
        }
    }
    if options.tally {
        print!("{tally}");
        for kind in tally.missing() {
            println!("never came: {kind}");
        }
    }
    let found = if same {
        "no difference"
    } else {
        "a difference"
    };
    let time = begun.elapsed().as_secs_f64();
    println!("{scripts} scripts, {lines} lines, {states} states poked: {found} ({time:.1} s)");
    Ok(same)
}

fn show(script: &Script, answers: &[Vec<u8>], at: usize, seed: u64) -> io::Result<()> {
    println!("the script of seed {seed} differs in line {}:", at + 1);
    for i in at.saturating_sub(SHOWN)..=at {
        if let (Some(line), Some(twin)) = (script.lines.get(i), script.answers.get(i)) {
            println!("  {}", shortened(line));
            println!("      {}", shortened(twin.as_bytes()));
        }
    }
    match answers.get(at) {
        Some(answer) => println!("  here: {}", shortened(answer)),
        None => println!("  here: no answer"),
    }
    let path = std::env::temp_dir().join("difference.txt");
    let end = script.lines.len().min(at + 1);
    fs::write(&path, text(&script.lines[..end]))?;
    println!("the script up to that line: {}", path.display());
    Ok(())
}
