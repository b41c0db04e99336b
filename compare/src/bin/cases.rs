//! The worked cases of `cases/` as a script for the console, and a console held to them.
//!
//!     cases script FILE..          prints the script
//!     cases answers FILE..         prints the answers that have to come
//!     cases run CONSOLE FILE..     runs a console and compares its answers
//!     cases --bench ..             the same for the bench, by the cases of `cases/server`
//!
//! Exit status 1 where an answer differs, 2 where something is wrong with the files or the call.

use compare::cases::language::{Language, BENCH, CONSOLE};
use compare::cases::{expand, read_in, Asked, File};
use compare::drive::{answers, differences, shortened};
use compare::scripts::Script;
use std::io::{self, Write};
use std::path::Path;
use std::process::ExitCode;

/// Cases whose differences are shown.
const SHOWN: usize = 5;

fn main() -> ExitCode {
    let words: Vec<String> = std::env::args().skip(1).collect();
    let mut words: Vec<&str> = words.iter().map(String::as_str).collect();
    let mut language = &CONSOLE;
    if words.first() == Some(&"--bench") {
        words.remove(0);
        language = &BENCH;
    }
    let done = match words[..] {
        ["script", ref files @ ..] if !files.is_empty() => {
            print(language, files, |asked| &asked.command)
        }
        ["answers", ref files @ ..] if !files.is_empty() => {
            print(language, files, |asked| &asked.answer)
        }
        ["run", program, ref files @ ..] if !files.is_empty() => run(language, program, files),
        _ => {
            eprintln!("usage: cases [--bench] script FILE..|answers FILE..|run PROGRAM FILE..");
            return ExitCode::from(2);
        }
    };
    match done {
        Ok(true) => ExitCode::SUCCESS,
        Ok(false) => ExitCode::FAILURE,
        Err(what) => {
            eprintln!("{what}");
            ExitCode::from(2)
        }
    }
}

fn all(language: &'static Language, names: &[&str]) -> Result<Vec<Asked>, String> {
    let mut files = Vec::new();
    for &name in names {
        let text = std::fs::read_to_string(name).map_err(|error| format!("{name}: {error}"))?;
        files.push(File {
            name: name.into(),
            text,
        });
    }
    read_in(language, &files)
        .and_then(|cases| expand(&cases))
        .map_err(|error| error.to_string())
}

fn print(
    language: &'static Language,
    names: &[&str],
    part: fn(&Asked) -> &String,
) -> Result<bool, String> {
    let mut out = io::BufWriter::new(io::stdout().lock());
    for asked in all(language, names)? {
        writeln!(out, "{}", part(&asked)).map_err(|error| error.to_string())?;
    }
    out.flush().map_err(|error| error.to_string())?;
    Ok(true)
}

/// Answers whether the program gave every answer that it has to.
fn run(language: &'static Language, program: &str, names: &[&str]) -> Result<bool, String> {
    let asked = all(language, names)?;
    let script = Script {
        lines: asked
            .iter()
            .map(|line| line.command.clone().into())
            .collect(),
        answers: asked.iter().map(|line| line.answer.clone()).collect(),
        states: 0,
    };
    let got =
        answers(Path::new(program), &script).map_err(|error| format!("{program}: {error}"))?;
    let different = differences(&script, &got);
    // In a case one difference leads to others: only its first is shown.
    let mut titles: Vec<&str> = Vec::new();
    for &i in &different {
        match asked.get(i) {
            Some(line) if titles.contains(&line.title.as_str()) => {}
            Some(line) => {
                titles.push(&line.title);
                if titles.len() <= SHOWN {
                    show(line, got.get(i).map(Vec::as_slice));
                }
            }
            None => println!("{program} answers more lines than it was asked"),
        }
    }
    if different.is_empty() {
        let mut titles: Vec<&str> = asked.iter().map(|line| line.title.as_str()).collect();
        titles.dedup();
        println!(
            "{program}: {} cases, {} lines, all answered as they have to be",
            titles.len(),
            asked.len()
        );
    } else {
        println!(
            "{program}: cases not answered as they have to be: {}",
            titles.len()
        );
    }
    Ok(different.is_empty())
}

fn show(line: &Asked, got: Option<&[u8]>) {
    let pieces = line
        .size
        .map_or(String::new(), |n| format!(" (in pieces of {n})"));
    println!("{}:{}: case {}{pieces}", line.file, line.line, line.title);
    if line.written != [line.command.as_str()] {
        for written in &line.written {
            println!("    {}", shortened(written.as_bytes()));
        }
    }
    println!("  command:  {}", shortened(line.command.as_bytes()));
    println!("  expected: {}", shortened(line.answer.as_bytes()));
    let Some(got) = got else {
        println!("  got:      no answer");
        return;
    };
    println!("  got:      {}", shortened(got));
    let wanted = line.answer.as_bytes();
    let same = wanted.iter().zip(got).take_while(|(a, b)| a == b).count();
    if same >= 300 {
        println!("  they differ from character {} on", same + 1);
    }
}
