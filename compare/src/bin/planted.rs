//! Mistakes planted into copies of the twin, one at a time, and the random scripts run against each: are they seen?
//! And changes that the rules allow, which must not be.
//!
//!     planted [--bench] [--quick] [--lines N] [--seed N] COMPARE OUT [NAME..]
//!
//! COMPARE is the folder with src/, planted/ and allowed/, OUT is where the copies are built. A file of the latter two
//! has a line that begins with `#`, and then parts of three: `file:`, `old:` (which stands once in that file) and
//! `new:`, each up to the next of these words at the start of a line. With `--bench` it is the twin of the bench, and
//! the files are those of planted/server/ and allowed/server/. With `--quick` the first script that shows a change is the
//! last one that is run against it, and nothing is optimised. Exit status 1 where a mistake is not seen, or an allowed
//! change is.

use compare::drive::{answers, differences, seed_of, SCRIPT};
use compare::scripts::Script;
use compare::sides::{Side, BENCH, CONSOLE};
use std::fs;
use std::path::{Path, PathBuf};
use std::process::{Command, ExitCode};
use std::sync::atomic::{AtomicUsize, Ordering};
use std::sync::Mutex;
use std::thread;

type Any<T> = Result<T, Box<dyn std::error::Error + Send + Sync>>;

/// Whose mistakes, and how they are tried.
struct How {
    side: &'static Side,
    quick: bool,
}

fn main() -> ExitCode {
    let mut how = How {
        side: &CONSOLE,
        quick: false,
    };
    let (mut lines, mut seed, mut places) = (100_000, 1, Vec::new());
    let mut words = std::env::args().skip(1);
    while let Some(word) = words.next() {
        let mut number = || {
            words
                .next()
                .and_then(|n| n.parse().ok())
                .unwrap_or_else(|| usage())
        };
        match word.as_str() {
            "--bench" => how.side = &BENCH,
            "--quick" => how.quick = true,
            "--lines" => lines = number() as usize,
            "--seed" => seed = number(),
            _ => places.push(word),
        }
    }
    let [folder, out, names @ ..] = &places[..] else {
        usage()
    };
    let scripts = scripts(how.side, lines, seed);
    match run(&how, &scripts, Path::new(folder), Path::new(out), names) {
        Ok(true) => ExitCode::SUCCESS,
        Ok(false) => ExitCode::FAILURE,
        Err(error) => {
            eprintln!("planted: {error}");
            ExitCode::from(2)
        }
    }
}

fn usage() -> ! {
    eprintln!("usage: planted [--bench] [--quick] [--lines N] [--seed N] COMPARE OUT [NAME..]");
    std::process::exit(2)
}

/// Answers whether every mistake was seen, and no allowed change.
fn run(how: &How, scripts: &[Script], folder: &Path, out: &Path, names: &[String]) -> Any<bool> {
    let mut edits = edits(&folder.join("planted").join(how.side.edits), names)?;
    let mistakes = edits.len();
    edits.extend(self::edits(
        &folder.join("allowed").join(how.side.edits),
        names,
    )?);
    let all: usize = scripts.iter().map(|script| script.lines.len()).sum();
    let (next, wrong) = (AtomicUsize::new(0), Mutex::new(Vec::new()));
    let work = || -> Any<()> {
        loop {
            let i = next.fetch_add(1, Ordering::Relaxed);
            let Some(edit) = edits.get(i) else {
                return Ok(());
            };
            let name = edit.file_stem().unwrap_or_default().to_string_lossy();
            let twin = build(how, edit, &folder.join("src"), &out.join(&*name))
                .map_err(|error| format!("{name}: {error}"))?;
            let (mut seen, mut hit, mut tried) = (0, 0, 0);
            for script in scripts {
                let n = differences(script, &answers(&twin, script)?).len();
                tried += 1;
                seen += n;
                hit += usize::from(n > 0);
                if how.quick && n > 0 {
                    break;
                }
            }
            let allowed = if i < mistakes { "" } else { " (allowed)" };
            println!("{seen:>8} lines in {hit:>3} of {tried:>3} scripts  {name}{allowed}");
            if (seen > 0) != (i < mistakes) {
                wrong.lock().expect("nobody panics").push(name.into_owned());
            }
        }
    };
    println!(
        "{} scripts, {all} lines; lines that are answered otherwise with a change:",
        scripts.len()
    );
    thread::scope(|scope| {
        let other = scope.spawn(work);
        work().and(other.join().expect("it does not panic"))
    })?;
    let wrong = wrong.into_inner()?;
    let allowed = edits.len() - mistakes;
    println!("{mistakes} mistakes and {allowed} allowed changes");
    if !wrong.is_empty() {
        println!("not seen, or seen and allowed: {}", wrong.join(" "));
    }
    Ok(wrong.is_empty())
}

/// The files of a folder, all or those of these names, in order.
fn edits(folder: &Path, names: &[String]) -> Any<Vec<PathBuf>> {
    let mut edits = Vec::new();
    for entry in fs::read_dir(folder)? {
        let path = entry?.path();
        let named = names.is_empty() || names.iter().any(|n| path.file_stem() == Some(n.as_ref()));
        // The other side's are in a folder in this one.
        if named && path.extension().is_some_and(|end| end == "edit") {
            edits.push(path);
        }
    }
    edits.sort();
    Ok(edits)
}

fn scripts(side: &Side, lines: usize, seed: u64) -> Vec<Script> {
    let (mut scripts, mut n) = (Vec::new(), 0);
    while n < lines {
        let script = (side.generate)(seed_of(seed, scripts.len() as u64), SCRIPT);
        n += script.lines.len();
        scripts.push(script);
    }
    scripts
}

/// Copies the sources, makes the edit, and builds a twin of them.
fn build(how: &How, edit: &Path, source: &Path, out: &Path) -> Any<PathBuf> {
    copy(source, out)?;
    let text = fs::read_to_string(edit)?;
    for part in text.split("\nfile: ").skip(1) {
        let (file, rest) = part.split_once("\nold: ").ok_or("no old text")?;
        let (old, new) = rest.split_once("\nnew: ").ok_or("no new text")?;
        let new = new.strip_suffix('\n').unwrap_or(new);
        let path = out.join(file);
        let before = fs::read_to_string(&path)?;
        if before.matches(old).count() != 1 {
            return Err(format!("the old text does not stand once in {file}").into());
        }
        fs::write(&path, before.replacen(old, new, 1))?;
    }
    let rustc = |words: &[&str]| -> Any<()> {
        let built = Command::new("rustc")
            .args([
                "--edition",
                "2021",
                "-C",
                if how.quick {
                    "opt-level=0"
                } else {
                    "opt-level=1"
                },
                "--cap-lints",
                "allow",
            ])
            .args(words)
            .current_dir(out)
            .status()?;
        built
            .success()
            .then_some(())
            .ok_or("it does not compile".into())
    };
    rustc(&["--crate-type", "rlib", "--crate-name", "compare", "lib.rs"])?;
    rustc(&[
        "--extern",
        "compare=libcompare.rlib",
        "-o",
        "twin",
        &format!("bin/{}.rs", how.side.twin),
    ])?;
    Ok(out.join("twin"))
}

fn copy(from: &Path, to: &Path) -> Any<()> {
    fs::create_dir_all(to)?;
    for entry in fs::read_dir(from)? {
        let entry = entry?;
        let target = to.join(entry.file_name());
        if entry.file_type()?.is_dir() {
            copy(&entry.path(), &target)?;
        } else {
            fs::copy(entry.path(), target)?;
        }
    }
    Ok(())
}
