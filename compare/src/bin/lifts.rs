//! Requests lifted out of captures by a program, and what it says compared with what it has to say.
//!
//!     lifts [--lift PATH] [--replay PATH] [--seed N] [--captures N] [--tally] [FILE..]
//!     lifts --mistakes [--seed N] [--captures N]
//!
//! The program is called as `PATH ID < capture`; where none is named, `lifted` is compared with itself. Out of the
//! files, which are captures too, each id is lifted; out of the random captures a few. Each copy is replayed, by the
//! ordinary receiver and by the program behind `--replay`, and has to tell of its request what the whole capture does.
//! The second form tries whether lifts that are wrong in one way each are noticed. Exit status 1 where something
//! differs, with the capture's file named, or where something never came or was never noticed; 2 where it is called
//! wrong or cannot run.

use compare::drive::seed_of;
use compare::lift::bench::{
    absent, difference, ids_in, ids_to_try, lacks_room, replay_difference, verdict_difference,
    Tally,
};
use compare::lift::mistakes::{mistaken, MISTAKES};
use compare::lift::{lift, said, Said};
use compare::random::Random;
use compare::replay::replay;
use compare::scripts::capture;
use std::fs::{self, File};
use std::io;
use std::path::{Path, PathBuf};
use std::process::{Command, ExitCode, Output};
use std::time::Instant;

struct Options {
    lift: PathBuf,
    replay: Option<PathBuf>,
    seed: u64,
    captures: u64,
    tally: bool,
    files: Vec<PathBuf>,
}

fn main() -> ExitCode {
    let mut options = Options {
        lift: beside("lifted"),
        replay: None,
        seed: 1,
        captures: 300,
        tally: false,
        files: Vec::new(),
    };
    let mut mistakes = false;
    let mut words = std::env::args().skip(1);
    while let Some(word) = words.next() {
        let mut argument = || words.next().unwrap_or_else(|| usage());
        let mut number = || argument().parse().unwrap_or_else(|_| usage());
        match word.as_str() {
            "--lift" => options.lift = argument().into(),
            "--replay" => options.replay = Some(argument().into()),
            "--seed" => options.seed = number(),
            "--captures" => options.captures = number(),
            "--tally" => options.tally = true,
            "--mistakes" => mistakes = true,
            _ if word.starts_with('-') => usage(),
            _ => options.files.push(word.into()),
        }
    }
    let done = if mistakes {
        Ok(all_noticed(&options))
    } else {
        run(&options)
    };
    match done {
        Ok(true) => ExitCode::SUCCESS,
        Ok(false) => ExitCode::FAILURE,
        Err(error) => {
            eprintln!("lifts: {error}");
            ExitCode::from(2)
        }
    }
}

fn usage() -> ! {
    let common = "[--seed N] [--captures N]";
    eprintln!("usage: lifts [--lift PATH] [--replay PATH] {common} [--tally] [FILE..]");
    eprintln!("       lifts --mistakes {common}");
    std::process::exit(2)
}

/// The program of this name in the folder of this one.
fn beside(name: &str) -> PathBuf {
    std::env::current_exe()
        .unwrap_or_default()
        .with_file_name(name)
}

/// A random capture and the ids to lift out of it.
fn random_case(seed: u64) -> (Vec<u8>, Vec<u16>) {
    let capture = capture(seed);
    // Another sequence than that of the capture.
    let ids = ids_to_try(&mut Random::new(!seed), &capture);
    (capture, ids)
}

/// Answers whether each mistake was noticed.
fn all_noticed(options: &Options) -> bool {
    let (mut lifts, mut noticed) = (0, MISTAKES.map(|_| 0));
    for i in 0..options.captures {
        let (capture, ids) = random_case(seed_of(options.seed, i));
        for id in ids {
            let wanted = said(&capture, id);
            lifts += 1;
            for (count, mistake) in noticed.iter_mut().zip(MISTAKES) {
                let got = mistaken(&capture, id, Some(mistake));
                *count += usize::from(difference(&wanted, &got).is_some());
            }
        }
    }
    println!(
        "{} captures, {lifts} lifts; those that are noticed to be wrong:",
        options.captures
    );
    for (count, mistake) in noticed.iter().zip(MISTAKES) {
        println!("{count:>8}  {mistake:?}");
    }
    noticed.iter().all(|&count| count > 0)
}

/// Answers whether all was as it has to be, and everything came that has to.
fn run(options: &Options) -> io::Result<bool> {
    let begun = Instant::now();
    let folder = std::env::temp_dir();
    let process = std::process::id();
    let mut bench = Bench {
        options,
        tally: Tally::default(),
        captures: 0,
        lifts: 0,
        replays: 0,
        copy: folder.join(format!("lifts-{process}-copy.bin")),
    };
    let file = folder.join(format!("lifts-{process}.bin"));
    let same = bench.all(&file);
    let _ = fs::remove_file(&bench.copy);
    let same = same?;
    if same {
        let _ = fs::remove_file(&file);
    }
    let missing = bench.tally.missing();
    for kind in &missing {
        println!("never came: {kind}");
    }
    if options.tally {
        print!("{}", bench.tally.all());
    }
    println!(
        "{} captures, {} lifts, {} copies replayed, {}: {} ({:.1} s)",
        bench.captures,
        bench.lifts,
        bench.replays,
        bench.tally.shown(),
        if same {
            "no difference"
        } else {
            "a difference"
        },
        begun.elapsed().as_secs_f64()
    );
    Ok(same && missing.is_empty())
}

struct Bench<'a> {
    options: &'a Options,
    tally: Tally,
    captures: usize,
    lifts: usize,
    replays: usize,
    /// Where a copy is put to be replayed.
    copy: PathBuf,
}

impl Bench<'_> {
    /// The files and then the random captures, each written to `file`, up to the first difference.
    fn all(&mut self, file: &Path) -> io::Result<bool> {
        for name in &self.options.files {
            let capture = fs::read(name).map_err(|error| told(name, error))?;
            let mut ids: Vec<u16> = ids_in(&capture).into_iter().collect();
            ids.push(absent(&mut Random::new(self.options.seed), &capture));
            ids.push(0);
            if !self.capture(name, &capture, &ids)? {
                return Ok(false);
            }
        }
        for i in 0..self.options.captures {
            let seed = seed_of(self.options.seed, i);
            let (capture, ids) = random_case(seed);
            fs::write(file, &capture)?;
            if !self.capture(file, &capture, &ids)? {
                println!("it is the capture of seed {seed}");
                return Ok(false);
            }
        }
        Ok(true)
    }

    /// All that is asked of one capture, which is in `file` too.
    fn capture(&mut self, file: &Path, capture: &[u8], ids: &[u16]) -> io::Result<bool> {
        let mut found = self.whole(file, capture)?;
        for &id in ids {
            if found.is_none() {
                found = self
                    .one(file, capture, id)?
                    .map(|what| format!("id {id}: {what}"));
            }
        }
        if let Some(what) = &found {
            println!("{}: {what}", file.display());
        }
        Ok(found.is_none())
    }

    /// What differs in the capture as a whole. The verdict is the same for every id.
    fn whole(&mut self, file: &Path, capture: &[u8]) -> io::Result<Option<String>> {
        let lines = replay(capture, 1_000);
        let verdict = lift(capture, 1).expect("the id is not 0").verdict;
        self.captures += 1;
        self.tally.count_capture(capture, verdict);
        if let Some(what) = verdict_difference(&lines, verdict) {
            return Ok(Some(what));
        }
        self.replayed(file, &lines)
    }

    /// What differs where one id is lifted.
    fn one(&mut self, file: &Path, capture: &[u8], id: u16) -> io::Result<Option<String>> {
        let wanted = said(capture, id);
        let lines = replay(capture, 1_000);
        self.lifts += 1;
        self.tally.count_lift(capture, id, &wanted, &lines);
        let output = output(&self.options.lift, &[&id.to_string()], file)?;
        let got = said_by(&output);
        if let Some(what) = difference(&wanted, &got) {
            return Ok(Some(what));
        }
        let Ok(lifted) = lift(capture, id) else {
            return Ok(None);
        };
        if lacks_room(&lines, id) {
            return Ok(None);
        }
        let of_copy = replay(&lifted.copy, 1_000);
        if let Some(what) = replay_difference(&lines, &of_copy, id, lifted.verdict) {
            return Ok(Some(what));
        }
        if lifted.copy.is_empty() {
            return Ok(None);
        }
        self.replays += 1;
        self.tally.count_replay(lifted.verdict);
        fs::write(&self.copy, &lifted.copy)?;
        let what = self.replayed(&self.copy, &of_copy)?;
        Ok(what.map(|what| format!("the copy: {what}")))
    }

    /// What differs where the program for it replays a file. It has to print what the ordinary receiver does, so of a
    /// copy it tells the same as of the whole where that receiver does.
    fn replayed(&self, file: &Path, lines: &str) -> io::Result<Option<String>> {
        let Some(program) = &self.options.replay else {
            return Ok(None);
        };
        let output = output(program, &[], file)?;
        let same = output.stdout == lines.as_bytes();
        Ok((!same).then(|| format!("{} replays it otherwise", program.display())))
    }
}

fn output(program: &Path, words: &[&str], input: &Path) -> io::Result<Output> {
    Command::new(program)
        .args(words)
        .stdin(File::open(input)?)
        .output()
        .map_err(|error| told(program, error))
}

fn told(path: &Path, error: io::Error) -> io::Error {
    io::Error::new(error.kind(), format!("{}: {error}", path.display()))
}

/// One line has to come on standard error, and the program has to end well; a line that no lift says stands for
/// anything else.
fn said_by(output: &Output) -> Said {
    let text = String::from_utf8_lossy(&output.stderr);
    let line = match text.strip_suffix('\n') {
        _ if !output.status.success() => format!("{text} ({})", output.status),
        Some(line) => line.into(),
        None => format!("{text} (without a newline)"),
    };
    Said {
        copy: output.stdout.clone(),
        line,
    }
}
