//! Two runs that belong together, on a console and compared, in many rounds: the whole of such a program. Its options
//! are `[--console PATH] [--seed N] [--rounds N]`.
//!
//! The first difference ends it. A round has a seed of its own, and a difference names it: `--seed` with that number
//! begins with this round. Exit status 1 where a request came out otherwise, or where something to be tallied never
//! came.

use crate::drive::{answers, text};
use crate::scripts::Script;
use std::fmt::Display;
use std::fs;
use std::io;
use std::path::PathBuf;
use std::process::ExitCode;
use std::sync::mpsc::sync_channel;
use std::thread;
use std::time::Instant;

/// Two runs that belong together.
pub trait Round: Send + Sized + 'static {
    type Tally: Default + Display;
    /// What a run is called, and the two of them.
    const RUN: &'static str;
    const RUNS: [&'static str; 2];

    fn new(seed: u64) -> Self;
    fn seed(&self) -> u64;
    fn scripts(&self) -> [&Script; 2];
    /// How many requests are compared, and how many calls they have.
    fn size(&self) -> (usize, usize);
    /// Tallies what a console answered in the two runs, or shows what differs.
    fn compare(&self, answers: [&[Vec<u8>]; 2], tally: &mut Self::Tally) -> Result<(), String>;
    /// What has to come and did not.
    fn missing(tally: &Self::Tally) -> Vec<&'static str>;
}

struct Options {
    console: PathBuf,
    seed: u64,
    rounds: u64,
}

/// The whole program: its options are the words behind its name.
pub fn rounds<R: Round>(name: &str) -> ExitCode {
    let mut options = Options {
        console: "crates/console/out/console".into(),
        seed: 1,
        rounds: 100,
    };
    let mut words = std::env::args().skip(1);
    while let Some(word) = words.next() {
        let mut argument = || words.next().unwrap_or_else(|| usage(name));
        let mut number = || argument().parse().unwrap_or_else(|_| usage(name));
        match word.as_str() {
            "--seed" => options.seed = number(),
            "--rounds" => options.rounds = number(),
            "--console" => options.console = argument().into(),
            _ => usage(name),
        }
    }
    match run::<R>(&options) {
        Ok(true) => ExitCode::SUCCESS,
        Ok(false) => ExitCode::FAILURE,
        Err(error) => {
            eprintln!("{name}: {}: {error}", options.console.display());
            ExitCode::from(2)
        }
    }
}

fn usage(name: &str) -> ! {
    eprintln!("usage: {name} [--console PATH] [--seed N] [--rounds N]");
    std::process::exit(2)
}

/// Answers whether every request came out alike, and everything to be tallied came.
fn run<R: Round>(options: &Options) -> io::Result<bool> {
    let begun = Instant::now();
    let mut tally = R::Tally::default();
    let (mut requests, mut calls, mut lines) = (0, 0, 0);
    // The next rounds are made while the console answers.
    let (sender, made) = sync_channel(2);
    let (seed, rounds) = (options.seed, options.rounds);
    thread::spawn(move || {
        for i in 0..rounds {
            // Nobody takes them after a difference.
            if sender.send(R::new(seed.wrapping_add(i))).is_err() {
                break;
            }
        }
    });
    for round in made {
        let [one, other] = round.scripts();
        let one = answers(&options.console, one)?;
        let other = answers(&options.console, other)?;
        lines += one.len() + other.len();
        if let Err(difference) = round.compare([&one, &other], &mut tally) {
            print!("{difference}");
            return write_scripts(&round).map(|()| false);
        }
        let (more_requests, more_calls) = round.size();
        requests += more_requests;
        calls += more_calls;
    }
    print!("{tally}");
    let missing = R::missing(&tally);
    for kind in &missing {
        println!("never came: {kind}");
    }
    let time = begun.elapsed().as_secs_f64();
    println!(
        "{rounds} rounds, {requests} requests, {calls} calls: every request came out alike ({lines} lines, {time:.1} s)"
    );
    Ok(missing.is_empty())
}

fn write_scripts<R: Round>(round: &R) -> io::Result<()> {
    for (script, name) in round.scripts().into_iter().zip(R::RUNS) {
        let path = std::env::temp_dir().join(format!("{}-{}-{name}.txt", R::RUN, round.seed()));
        fs::write(&path, text(&script.lines))?;
        println!("the script of the {name} {}: {}", R::RUN, path.display());
    }
    Ok(())
}
