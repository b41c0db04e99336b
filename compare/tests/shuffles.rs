//! Two shuffles of one set of requests: that the runs are what they should be, that the twin's requests come out alike,
//! and that an answer which is altered, lacks or is too many is noticed.

use compare::console::words::bytes;
use compare::scripts::own::Item;
use compare::shuffles::{round, Run, Whose};
use compare::state::SLOTS;
use compare::wire::{Header, HEADER};
use std::collections::BTreeMap;
use std::fs;
use std::os::unix::fs::PermissionsExt;
use std::path::{Path, PathBuf};
use std::process::Command;

/// The records and the calls of one request, each with how many of its bytes came before.
#[derive(Debug, Default, PartialEq)]
struct Shares {
    records: Vec<Vec<u8>>,
    calls: Vec<(usize, String)>,
}

/// Where the lines that see what is left begin.
fn tail(run: &Run) -> usize {
    let all = run.whose.iter().position(|&whose| whose == Whose::All);
    all.expect("every run ends with them")
}

/// What a run gives to each request, from its lines alone: the bytes that were used, divided into records.
fn shares(run: &Run) -> BTreeMap<u16, Shares> {
    let (mut used_bytes, mut calls) = (Vec::new(), Vec::new());
    for i in 0..tail(run) {
        let line = String::from_utf8(run.script.lines[i].clone()).unwrap();
        let answer = &run.script.answers[i];
        match run.whose[i] {
            Whose::Bytes => {
                let piece = bytes(line.rsplit(' ').next().unwrap()).unwrap();
                let used = answer.rsplit("; ").next().unwrap();
                let used: usize = used.split(' ').nth(1).unwrap().parse().unwrap();
                assert!(used > 0 && !answer.contains("closed"), "{answer}");
                used_bytes.extend(&piece[..used]);
            }
            Whose::Of(id) => calls.push((id, used_bytes.len(), line)),
            Whose::Start => assert_eq!((i, line.as_str()), (0, "start")),
            Whose::Nobody => assert_eq!(line, "active"),
            Whose::All => unreachable!(),
        }
    }
    let mut shares = BTreeMap::<u16, Shares>::new();
    // Of each record: whose it is, and where it begins and ends.
    let (mut places, mut from) = (Vec::new(), 0);
    while from < used_bytes.len() {
        let header = Header::read(used_bytes[from..from + HEADER].try_into().unwrap());
        assert!(header.version == 1 && header.id > 0);
        let to = from + HEADER + usize::from(header.content) + usize::from(header.padding);
        places.push((header.id, from, to));
        let record = used_bytes[from..to].to_vec();
        shares.entry(header.id).or_default().records.push(record);
        from = to;
    }
    for (id, at, line) in calls {
        let own = places.iter().filter(|place| place.0 == id);
        let before = own.map(|&(_, from, to)| at.clamp(from, to) - from).sum();
        shares.entry(id).or_default().calls.push((before, line));
    }
    shares
}

/// What a request was made with.
fn share(items: &[Item]) -> Shares {
    let (mut share, mut before) = (Shares::default(), 0);
    for item in items {
        match item {
            Item::Call(line) => share.calls.push((before, line.clone())),
            Item::Record { bytes, calls } => {
                for (at, line) in calls {
                    assert!((1..bytes.len()).contains(at));
                    share.calls.push((before + at, line.clone()));
                }
                share.records.push(bytes.clone());
                before += bytes.len();
            }
        }
    }
    share
}

/// Whole records and calls, the same for each request in both runs, in its own order and after the same bytes; nothing
/// refused for room, nothing of management, and the connection stays open.
#[test]
fn runs_are_shuffles_of_the_same() {
    for seed in 0..60 {
        let round = round(seed);
        assert!((2..=SLOTS).contains(&round.requests.len()));
        let made: BTreeMap<u16, Shares> = round
            .requests
            .iter()
            .map(|own| (own.id, share(&own.items)))
            .collect();
        assert_eq!(made.len(), round.requests.len());
        for run in &round.runs {
            assert_eq!(shares(run), made, "seed {seed}");
            for answer in &run.script.answers {
                let no_room = |told: &str| told.contains("refuse ") && told.ends_with(" 2");
                assert!(!answer.split("; ").any(no_room), "seed {seed}: {answer}");
            }
        }
        let [one, other] = &round.runs;
        assert_eq!(
            one.script.lines[tail(one)..],
            other.script.lines[tail(other)..]
        );
        assert_ne!(one.script.lines, other.script.lines);
    }
}

/// An answer that lacks, and one that nobody asked for.
#[test]
fn every_line_is_answered_once() {
    let round = round(1);
    let twin = |i: usize| -> Vec<Vec<u8>> {
        let answers = round.runs[i].script.answers.iter();
        answers.map(|answer| answer.clone().into_bytes()).collect()
    };
    let [one, other] = [0, 1].map(twin);
    assert!(round.compared([&one, &other]).is_ok());
    let short = &one[..one.len() - 1];
    let long = [&one[..], &[b"ok".to_vec()]].concat();
    for wrong in [short, &long] {
        let difference = round.compared([wrong, &other]).err().unwrap();
        assert_eq!(difference.told[0].astray.len(), 1);
    }
}

/// The exit status of the program, and what it printed.
fn shuffles(console: &Path, words: &[&str], temporary: &Path) -> (Option<i32>, String) {
    let printed = Command::new(env!("CARGO_BIN_EXE_shuffles"))
        .arg("--console")
        .arg(console)
        .args(words)
        .env("TMPDIR", temporary)
        .output()
        .unwrap();
    let text = String::from_utf8(printed.stdout).unwrap();
    (printed.status.code(), text)
}

/// A folder of this test.
fn folder(name: &str) -> PathBuf {
    let path = Path::new(env!("CARGO_TARGET_TMPDIR")).join(name);
    let _ = fs::remove_dir_all(&path);
    fs::create_dir_all(&path).unwrap();
    path
}

const TWIN: &str = env!("CARGO_BIN_EXE_twin");

/// One after the other: a file that was just written cannot be run while another thread starts a program.
#[test]
fn the_program() {
    the_twin_comes_out_alike();
    an_altered_answer_is_shown();
}

fn the_twin_comes_out_alike() {
    let folder = folder("alike");
    let (status, text) = shuffles(TWIN.as_ref(), &["--rounds", "60"], &folder);
    assert_eq!(status, Some(0), "{text}");
    let last = text.lines().last().unwrap();
    assert!(last.starts_with("60 rounds, ") && last.contains(": every request came out alike"));
    // One round does not have everything.
    let (status, text) = shuffles(TWIN.as_ref(), &["--rounds", "1"], &folder);
    assert_eq!(status, Some(1));
    assert!(text.contains("\nnever came: "));
    assert_eq!(fs::read_dir(folder).unwrap().count(), 0);
}

/// Some answers of a console are altered on their way.
fn an_altered_answer_is_shown() {
    let folder = folder("altered");
    let console = folder.join("console");
    let altered = "NR % 40 == 0 && /^wrote/ { print \"refused 6\"; next } 1";
    fs::write(&console, format!("#!/bin/sh\n'{TWIN}' | awk '{altered}'\n")).unwrap();
    fs::set_permissions(&console, fs::Permissions::from_mode(0o755)).unwrap();
    let (status, text) = shuffles(&console, &["--seed", "5", "--rounds", "20"], &folder);
    assert_eq!(status, Some(1), "{text}");
    let seed = text
        .strip_prefix("seed ")
        .and_then(|text| text.split(':').next());
    let seed = seed.unwrap();
    assert!(text.contains(" came out otherwise"));
    let shown = |line: &str| line.starts_with("  * ") && line.ends_with(": refused 6");
    assert!(text.lines().any(shown));
    // The same round by its seed alone; and the scripts are those of the round.
    assert_eq!(
        shuffles(&console, &["--seed", seed, "--rounds", "1"], &folder),
        (status, text.clone())
    );
    let round = round(seed.parse().unwrap());
    for (run, name) in round.runs.iter().zip(["one", "other"]) {
        let written = fs::read(folder.join(format!("shuffle-{seed}-{name}.txt"))).unwrap();
        assert!(written == compare::drive::text(&run.script.lines));
    }
}
