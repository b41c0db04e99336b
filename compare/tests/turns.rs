//! Two runs with turns of their own: that they are what they should be, that the twin's come out alike, and that consoles
//! which lose, mix up or hold up what waits are noticed.

use compare::console::words::bytes;
use compare::console::Console;
use compare::queue::{QUEUE, ROOM};
use compare::scripts::turns::{Line, Own, Run};
use compare::scripts::Script;
use compare::state::SLOTS;
use compare::turns::{round, Round};
use compare::wire::{Header, HEADER};
use std::process::Command;

/// The request's bytes and its calls in order, bytes that no call comes between joined.
fn joined(own: &[Own]) -> Vec<Own> {
    let mut all: Vec<Own> = Vec::new();
    for own in own {
        match (own, all.last_mut()) {
            (Own::Bytes(more), Some(Own::Bytes(bytes))) => bytes.extend(more),
            _ => all.push(own.clone()),
        }
    }
    all
}

/// What the request does in a run, from its lines alone; and that the run keeps to what is asked of it.
fn own(run: &Run, id: u16) -> Vec<Own> {
    let mut console = Console::default();
    let leaving = |console: &Console| {
        let slot = console.connection.find(id);
        slot.is_some_and(|slot| console.waits.leaving(slot))
    };
    let (mut own, mut header, mut left, mut skipped) = (Vec::new(), Vec::new(), 0, false);
    for (i, line) in run.script.lines.iter().enumerate() {
        let before = leaving(&console);
        let answer = console.answer(line);
        assert_eq!(answer, run.script.answers[i]);
        let line = String::from_utf8(line.clone()).unwrap();
        match run.lines[i] {
            Line::Start => assert_eq!((i, line.as_str()), (0, "start")),
            Line::Turn => assert!(line.starts_with("pump ") && answer.ends_with(" open")),
            Line::Other => assert_ne!(line.split(' ').nth(1), Some(id.to_string().as_str())),
            Line::Call { leaving, .. } => {
                assert_eq!(leaving, before);
                assert_ne!(answer, "refused 10");
                own.push(Own::Call(line));
            }
            Line::Bytes => {
                let used = answer.rsplit("; ").next().unwrap();
                let used: usize = used.split(' ').nth(1).unwrap().parse().unwrap();
                for &byte in &bytes(line.rsplit(' ').next().unwrap()).unwrap()[..used] {
                    header.push(byte);
                    skipped |= before;
                    left = usize::max(left, 1) - 1;
                    if header.len() == HEADER {
                        let header = Header::read(header[..].try_into().unwrap());
                        left = usize::from(header.content) + usize::from(header.padding);
                    }
                    if header.len() < HEADER || left > 0 {
                        continue;
                    }
                    let record = std::mem::take(&mut header);
                    let skipped = std::mem::take(&mut skipped);
                    if record[2..4] == id.to_be_bytes() {
                        assert!(!skipped, "a byte came while the request is leaving");
                        own.push(Own::Bytes(record));
                    }
                }
            }
        }
    }
    let connection = &console.connection;
    assert!(connection.open && header.is_empty());
    let slot = connection.find(id);
    assert!(!slot.is_some_and(|slot| console.waits.anything(slot)));
    own
}

/// The bytes of the request alone, and its calls alone: where a call comes inside a record they are compared by the lines.
fn parts(own: &[Own]) -> (Vec<u8>, Vec<&str>) {
    let (mut bytes, mut calls) = (Vec::new(), Vec::new());
    for own in own {
        match own {
            Own::Bytes(more) => bytes.extend(more),
            Own::Call(line) => calls.push(line.as_str()),
        }
    }
    (bytes, calls)
}

#[test]
fn runs_are_the_same_to_the_request() {
    for seed in 0..60 {
        let round = round(seed);
        let [one, other] = &round.pair.runs;
        let made = joined(&round.pair.own);
        for run in [one, other] {
            assert_eq!(parts(&own(run, round.pair.id)), parts(&made), "seed {seed}");
        }
        // Nothing but the request's and turns is in the second; there each call comes right behind its bytes.
        assert!(!other.lines.contains(&Line::Other));
        let mut alone = Vec::new();
        for (i, line) in other.lines.iter().enumerate() {
            let text = String::from_utf8(other.script.lines[i].clone()).unwrap();
            match line {
                Line::Call { .. } => alone.push(Own::Call(text)),
                Line::Bytes => {
                    let used = other.script.answers[i].rsplit("; ").next().unwrap();
                    let used: usize = used.split(' ').nth(1).unwrap().parse().unwrap();
                    let piece = bytes(text.rsplit(' ').next().unwrap()).unwrap();
                    alone.push(Own::Bytes(piece[..used].to_vec()));
                }
                _ => {}
            }
        }
        assert_eq!(joined(&alone), made, "seed {seed}");
    }
}

/// What a console answers that makes a mistake of its own after each line.
fn answers(script: &Script, mistake: Mistake) -> Vec<Vec<u8>> {
    let mut console = Console::default();
    let lines = script.lines.iter().map(|line| {
        let before = console.clone();
        let answer = console.answer(line);
        let line = std::str::from_utf8(line).unwrap();
        mistake(line, &before, &mut console, answer).into_bytes()
    });
    lines.collect()
}

type Mistake = fn(&str, &Console, &mut Console, String) -> String;

/// How many requests wait.
fn waiting(console: &Console) -> u32 {
    console.waits.waiting().count_ones()
}

const MISTAKES: [(&str, Mistake); 10] = [
    (
        "an END takes what waits in the next slot with it",
        |_, before, console, answer| {
            let freed = before.connection.occupied & !console.connection.occupied;
            for slot in (0..SLOTS - 1).filter(|slot| freed >> slot & 1 == 1) {
                console.waits.numbers[48] &= !(1 << (slot + 1));
            }
            answer
        },
    ),
    (
        "with others in the queue, data is written twice",
        |line, before, console, answer| {
            if line.starts_with("pump 1 ") && waiting(before) > 1 {
                console.waits.clone_from(&before.waits);
                console.queue.clone_from(&before.queue);
            }
            answer
        },
    ),
    (
        "with others in the queue, all data is STDOUT's",
        |line, before, console, answer| {
            if line.starts_with("queue say") && waiting(before) > 1 {
                let changed = (0..QUEUE).filter(|&i| console.queue[i] != before.queue[i]);
                for i in changed.collect::<Vec<_>>() {
                    console.waits.marks[i] = 0;
                }
            }
            answer
        },
    ),
    (
        "a byte of slot 1 is written for the others too",
        |line, _, console, answer| {
            if line.starts_with("queue say") {
                let byte = console.queue[ROOM];
                console.queue[2 * ROOM] = byte;
            }
            answer
        },
    ),
    (
        "the pump always begins with slot 0",
        |_, _, console, answer| {
            console.waits.numbers[53] = 0;
            answer
        },
    ),
    (
        "a turn loses the ends at the front",
        |line, _, console, answer| {
            if line.starts_with("pump 2 ") {
                console.waits.numbers[49] = 0;
            }
            answer
        },
    ),
    (
        "a queued finish of another aborts the request",
        |line, before, console, answer| {
            if line.starts_with("queue finish") && answer == "waits" {
                let before = &before.connection.slots;
                let mut slots = console.connection.slots.iter_mut().zip(before);
                let next = slots.find(|(now, was)| now.life == was.life && now.id > 0);
                if let Some((request, _)) = next {
                    request.life = compare::state::Life::Aborted;
                }
            }
            answer
        },
    ),
    (
        "a request keeps what its slot waited with",
        |_, before, console, answer| {
            let opened = console.connection.occupied & !before.connection.occupied;
            for slot in (0..SLOTS).filter(|slot| opened >> slot & 1 == 1) {
                if console.queue[slot * ROOM] > 0 {
                    console.waits.numbers[48] |= 1 << slot;
                }
            }
            answer
        },
    ),
    (
        "a queued end is written at once and waits too",
        |line, _, _, answer| {
            if line.starts_with("queue end") && answer == "waits" {
                return "wrote 8 0106000100000000".into();
            }
            answer
        },
    ),
    (
        "a straight call is refused while others wait",
        |line, before, _, answer| {
            if line.starts_with("say") && waiting(before) > 0 && answer.starts_with("wrote") {
                return "refused 10".into();
            }
            answer
        },
    ),
];

fn noticed(round: &Round, mistake: Mistake) -> bool {
    let [one, other] = [0, 1].map(|run| answers(&round.pair.runs[run].script, mistake));
    round.compared([&one, &other]).is_err()
}

#[test]
fn mistakes_are_noticed() {
    let rounds: Vec<Round> = (1..=60).map(round).collect();
    for round in &rounds[..5] {
        assert!(!noticed(round, |_, _, _, answer| answer));
    }
    for (name, mistake) in MISTAKES {
        assert!(rounds.iter().any(|round| noticed(round, mistake)), "{name}");
    }
}

#[test]
fn the_program() {
    let run = |rounds| {
        let printed = Command::new(env!("CARGO_BIN_EXE_turns"))
            .args(["--console", env!("CARGO_BIN_EXE_twin"), "--rounds", rounds])
            .output()
            .unwrap();
        let text = String::from_utf8(printed.stdout).unwrap();
        (printed.status.code(), text)
    };
    let (status, text) = run("100");
    assert_eq!(status, Some(0), "{text}");
    let last = text.lines().last().unwrap();
    assert!(last.contains("100 requests") && last.contains(": every request came out alike"));
    // One round does not have everything.
    let (status, text) = run("1");
    assert!(
        status == Some(1) && text.contains("\nnever came: "),
        "{text}"
    );
}
