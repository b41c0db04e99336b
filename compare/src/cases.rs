//! Worked cases as text that can be read, and the script for the console, or for the bench, and the answers that they
//! stand for. The format is described in `cases/README.md`.

mod bytes;
pub mod language;
mod records;

use crate::console::words::hex;
use crate::console::LONGEST_LINE;
use bytes::{joined, plain, words};
use language::{Language, CONSOLE};
use std::collections::BTreeMap;
use std::fmt;

/// A case with records is run once for each of these sizes of pieces.
pub const SIZES: [usize; 4] = [1, 7, 8, 65_536];

/// A case file: its name and its text.
pub struct File {
    pub name: String,
    pub text: String,
}

pub struct Case {
    language: &'static Language,
    pub file: String,
    pub title: String,
    line: usize,
    items: Vec<Item>,
    /// What is repeated from an item on, and how often, while its end is not read.
    repeated: Option<(usize, usize)>,
}

/// A command, or records that are sent together.
#[derive(Clone)]
struct Item {
    /// The first line of it in the file, and its lines as they are written there.
    line: usize,
    written: Vec<String>,
    asked: What,
    answers: Vec<String>,
}

#[derive(Clone)]
enum What {
    Command(String),
    /// What the other end sends, in pieces.
    Sent(Vec<u8>),
    /// The next bytes of a body of readings, at once.
    Read(Vec<u8>),
}

/// A line for the console, the answer that has to come, and where both are from.
pub struct Asked {
    pub command: String,
    pub answer: String,
    pub file: String,
    pub line: usize,
    pub title: String,
    /// The size of the pieces; none in a case without records.
    pub size: Option<usize>,
    pub written: Vec<String>,
}

/// What is wrong in a file, and where.
#[derive(Debug, PartialEq)]
pub struct Error {
    pub file: String,
    pub line: usize,
    pub what: String,
}

impl fmt::Display for Error {
    fn fmt(&self, out: &mut fmt::Formatter) -> fmt::Result {
        write!(out, "{}:{}: {}", self.file, self.line, self.what)
    }
}

/// The cases of all files, which are for the console. Their titles differ.
pub fn read(files: &[File]) -> Result<Vec<Case>, Error> {
    read_in(&CONSOLE, files)
}

/// The same for files in either language.
pub fn read_in(language: &'static Language, files: &[File]) -> Result<Vec<Case>, Error> {
    let mut cases = Vec::new();
    for file in files {
        let mut reader = Reader {
            language,
            file: &file.name,
            cases: Vec::new(),
        };
        for (i, line) in file.text.lines().enumerate() {
            reader
                .line(i + 1, line.trim_end())
                .map_err(|what| error(&file.name, i + 1, what))?;
        }
        cases.extend(reader.cases);
    }
    let mut titles = BTreeMap::new();
    for case in &cases {
        if let Some(other) = titles.insert(&case.title, &case.file) {
            let what = format!("there is a case of this title in {other} already");
            return Err(error(&case.file, case.line, what));
        }
    }
    Ok(cases)
}

/// The lines for the console, case by case and size by size.
pub fn expand(cases: &[Case]) -> Result<Vec<Asked>, Error> {
    let mut all = Vec::new();
    for case in cases {
        if case.items.is_empty() {
            return Err(error(&case.file, case.line, "the case is empty".into()));
        }
        if case.repeated.is_some() {
            let what = "`times` without `done` behind it".into();
            return Err(error(&case.file, case.line, what));
        }
        let sent = |item: &Item| matches!(item.asked, What::Sent(_));
        let sizes: Vec<Option<usize>> = if case.items.iter().any(sent) {
            SIZES.map(Some).into()
        } else {
            vec![None]
        };
        for size in sizes {
            let mut before = case.language.before();
            // Nothing else gives a new reader.
            if case.items.iter().any(Item::reads) {
                before.push(("body new".into(), "ok"));
            }
            for (command, answer) in before {
                all.push(case.asked(size, case.line, &[], command, answer.into()));
            }
            for item in &case.items {
                let (command, answer) = item
                    .line_for(size.unwrap_or(1))
                    .map_err(|what| error(&case.file, item.line, what))?;
                all.push(case.asked(size, item.line, &item.written, command, answer));
            }
        }
    }
    Ok(all)
}

fn error(file: &str, line: usize, what: String) -> Error {
    Error {
        file: file.into(),
        line,
        what,
    }
}

impl Case {
    fn begin_times(&mut self, times: &str) -> Result<(), String> {
        let times = times.parse().ok().filter(|n| (1..=2_000).contains(n));
        let times = times.ok_or("it is `times N`, with N from 1 to 2,000")?;
        match self.repeated.replace((self.items.len(), times)) {
            None => Ok(()),
            Some(_) => Err("what is repeated has no end: a line `done` is missing".into()),
        }
    }

    fn end_times(&mut self) -> Result<(), String> {
        let (from, times) = self
            .repeated
            .take()
            .ok_or("`done` without `times` before it")?;
        let items = self.items[from..].to_vec();
        for _ in 1..times {
            self.items.extend_from_slice(&items);
        }
        Ok(())
    }

    fn asked(
        &self,
        size: Option<usize>,
        line: usize,
        written: &[String],
        command: String,
        answer: String,
    ) -> Asked {
        Asked {
            command,
            answer,
            file: self.file.clone(),
            line,
            title: self.title.clone(),
            size,
            written: written.to_vec(),
        }
    }
}

impl Item {
    /// Whether it is for the reader.
    fn reads(&self) -> bool {
        match &self.asked {
            What::Read(_) => true,
            What::Command(command) => command.starts_with("body "),
            What::Sent(_) => false,
        }
    }

    fn line_for(&self, size: usize) -> Result<(String, String), String> {
        let (command, answer) = match &self.asked {
            What::Command(command) => (command.clone(), self.answer_of(command)?),
            What::Sent(bytes) => (
                format!("feed {size} {}", hex(bytes)),
                self.told_by(bytes.len()),
            ),
            What::Read(bytes) => (format!("read {}", hex(bytes)), self.told_by(bytes.len())),
        };
        if command.len() > LONGEST_LINE {
            return Err("the line for this would be too long".into());
        }
        Ok((command, answer))
    }

    /// Commands that set something are answered by `ok`, which need not be written.
    fn answer_of(&self, command: &str) -> Result<String, String> {
        let word = command.split(' ').next();
        let sets = matches!(word, Some("lend" | "poke")) || command == "body new";
        match &self.answers[..] {
            [answer] => Ok(answer.clone()),
            [] if sets => Ok("ok".into()),
            [] => Err("no answer follows: a line that begins with > is missing".into()),
            _ => Err("a command has one answer: only records and `read` may tell more".into()),
        }
    }

    /// Events or readings, and then the bytes used: all of them where nothing else is said.
    fn told_by(&self, sent: usize) -> String {
        let mut told = self.answers.clone();
        if !told.last().is_some_and(|last| ends_feed(last)) {
            told.push(format!("used {sent}"));
        }
        told.join("; ")
    }
}

fn ends_feed(answer: &str) -> bool {
    matches!(answer.split(' ').next(), Some("used" | "refused"))
}

struct Reader<'a> {
    language: &'static Language,
    file: &'a str,
    cases: Vec<Case>,
}

impl Reader<'_> {
    fn line(&mut self, number: usize, line: &str) -> Result<(), String> {
        if line.is_empty() || line.starts_with('#') {
            return Ok(());
        }
        if let Some(title) = line.strip_prefix("case ") {
            self.cases.push(Case {
                language: self.language,
                file: self.file.into(),
                title: title.trim().into(),
                line: number,
                items: Vec::new(),
                repeated: None,
            });
            return Ok(());
        }
        let case = self
            .cases
            .last_mut()
            .ok_or("no case has begun: a line `case TITLE` is missing")?;
        if let Some(times) = line.strip_prefix("times ") {
            return case.begin_times(times);
        }
        if line == "done" {
            return case.end_times();
        }
        match line.strip_prefix('>') {
            Some(answer) => {
                let item = case
                    .items
                    .last_mut()
                    .ok_or("an answer without a command or a record before it")?;
                add_answer(self.language, item, answer)
            }
            None => add_asked(case, number, line),
        }
    }
}

fn add_answer(language: &Language, item: &mut Item, line: &str) -> Result<(), String> {
    let answer = answer_text(line)?;
    let (known, kind): (&[&str], _) = match item.asked {
        What::Command(_) => {
            item.answers.push(answer);
            return Ok(());
        }
        What::Sent(_) => (language.events, "event"),
        What::Read(_) => (&["reading"], "reading"),
    };
    if item.answers.last().is_some_and(|last| ends_feed(last)) {
        return Err("nothing is told after `used` or `refused`".into());
    }
    let first = answer.split(' ').next().unwrap_or_default();
    if !known.contains(&first) && !ends_feed(&answer) {
        return Err(format!("`{first}` is no {kind}"));
    }
    item.answers.push(answer);
    Ok(())
}

fn add_asked(case: &mut Case, number: usize, line: &str) -> Result<(), String> {
    let words = words(line)?;
    let language = case.language;
    let asked = match (words[0], (language.record)(&words)?) {
        ("read", _) if language.station => What::Read(bytes_behind(&words, 1)?),
        (_, Some(bytes)) => What::Sent(bytes),
        _ => What::Command(command_text(language, &words)?),
    };
    // Records that follow each other are sent together.
    if let (What::Sent(more), Some(item)) = (&asked, case.items.last_mut()) {
        if let (What::Sent(bytes), true) = (&mut item.asked, item.answers.is_empty()) {
            bytes.extend(more);
            item.written.push(line.into());
            return Ok(());
        }
    }
    case.items.push(Item {
        line: number,
        written: vec![line.into()],
        asked,
        answers: Vec::new(),
    });
    Ok(())
}

fn command_text(language: &Language, words: &[&str]) -> Result<String, String> {
    let name = words[0];
    if !language.commands.contains(&name) {
        return Err(format!("`{name}` is no command and no record"));
    }
    match name {
        "step" | "next" => with_bytes(words, 1),
        "feed" => with_bytes(words, 2),
        _ => plain(words),
    }
}

/// Words up to a place, and behind it bytes in one or more parts.
fn with_bytes(words: &[&str], from: usize) -> Result<String, String> {
    let bytes = bytes_behind(words, from)?;
    Ok(format!("{} {}", words[..from].join(" "), hex(&bytes)))
}

fn bytes_behind(words: &[&str], from: usize) -> Result<Vec<u8>, String> {
    if words.len() <= from {
        return Err("bytes are missing at the end (`-` stands for none)".into());
    }
    joined(&words[from..])
}

fn answer_text(line: &str) -> Result<String, String> {
    let words = words(line.trim_start())?;
    match words[..] {
        [] => Err("an answer is missing behind >".into()),
        ["area" | "values", ..] => with_bytes(&words, 1),
        ["data" | "output", ..] => with_bytes(&words, 3),
        ["used", _, "values", ..] => with_bytes(&words, 3),
        ["used", _, "data" | "output", ..] => with_bytes(&words, 5),
        ["wrote", count, ..] => written(&words, count, 2),
        ["pumped", _, count, ..] => written(&words, count, 3),
        _ => plain(&words),
    }
}

/// The bytes from a place on are as many as the answer says.
fn written(words: &[&str], count: &str, from: usize) -> Result<String, String> {
    let last = words.iter().rposition(|word| !BEHIND.contains(word));
    let (bytes, behind) = words.split_at(last.map_or(0, |last| last + 1));
    let text = with_bytes(bytes, from)?;
    let shown = joined(&bytes[from..])?.len();
    if count.parse() != Ok(shown) {
        return Err(format!(
            "`{} {count}`, but {shown} bytes are shown",
            words[0]
        ));
    }
    Ok([&[text.as_str()], behind].concat().join(" "))
}

/// Words that come behind the bytes that were written.
const BEHIND: [&str; 3] = ["open", "closed", "touched"];
