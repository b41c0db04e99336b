//! Consoles that mix requests up, or that tell which slot a request has: two shuffles have to show each of them.

use compare::console::Console;
use compare::scripts::Script;
use compare::shuffles::{round, Round};
use compare::state::{area, Connection, Life, Request, Target, SLOTS};

/// What a console answers that makes a mistake of its own after each line.
fn answers(script: &Script, mistake: Mistake) -> Vec<Vec<u8>> {
    let mut console = Console::default();
    let mut had = [Request::FREE; SLOTS];
    let lines = script.lines.iter().map(|line| {
        let before = Before {
            words: std::str::from_utf8(line).unwrap().split(' ').collect(),
            connection: console.connection.clone(),
            store: console.store.clone(),
            had,
        };
        let answer = console.answer(line);
        let answer = mistake(&before, &mut console, answer);
        for slot in before.freed(&console) {
            had[slot] = before.connection.slots[slot];
        }
        answer.into_bytes()
    });
    lines.collect()
}

/// A line, and what there was before it.
struct Before<'a> {
    words: Vec<&'a str>,
    connection: Connection,
    store: Vec<u8>,
    /// Of each slot, the last request that was finished in it.
    had: [Request; SLOTS],
}

impl Before<'_> {
    /// The slots that the line freed.
    fn freed(&self, console: &Console) -> Vec<usize> {
        let freed = |&slot: &usize| self.connection.taken(slot) && !console.connection.taken(slot);
        (0..SLOTS).filter(freed).collect()
    }

    /// The requests that the line opened, each with the one that its slot had before, if there was one.
    fn opened<'a>(
        &'a self,
        console: &'a mut Console,
    ) -> impl Iterator<Item = (&'a mut Request, Request)> {
        let occupied = console.connection.occupied & !self.connection.occupied;
        let slots = console.connection.slots.iter_mut().zip(self.had);
        let opened = move |slot: &(usize, _)| occupied >> slot.0 & 1 == 1;
        let opened = slots.enumerate().filter(opened).map(|(_, slot)| slot);
        opened.filter(|(_, had)| had.id > 0)
    }
}

type Mistake = fn(&Before, &mut Console, String) -> String;

const MISTAKES: [(&str, Mistake); 14] = [
    (
        "places of pairs count from the start of the store",
        |before, console, answer| {
            let slot = before
                .words
                .get(1)
                .and_then(|id| console.connection.find(id.parse().ok()?));
            match (answer.strip_prefix("pair "), slot) {
                (Some(places), Some(slot)) => format!("pair {} and {places}", area(slot).start),
                _ => answer,
            }
        },
    ),
    ("a finish leaves the area", |before, console, answer| {
        for slot in before.freed(console) {
            console.store[area(slot)].copy_from_slice(&before.store[area(slot)]);
        }
        answer
    }),
    ("a slot keeps its counts", |before, console, answer| {
        for (request, had) in before.opened(console) {
            request.stdin_shown += had.stdin_shown;
        }
        answer
    }),
    ("a slot keeps its flag", |before, console, answer| {
        for (request, had) in before.opened(console) {
            request.keep = had.keep;
        }
        answer
    }),
    ("a slot keeps its role", |before, console, answer| {
        for (request, had) in before.opened(console) {
            request.role = had.role;
        }
        answer
    }),
    (
        "a slot keeps that STDERR is used",
        |before, console, answer| {
            for (request, had) in before.opened(console) {
                request.err_used = had.err_used;
            }
            answer
        },
    ),
    (
        "a slot keeps that STDOUT is ended",
        |before, console, answer| {
            for (request, had) in before.opened(console) {
                request.out_ended = had.out_ended;
            }
            answer
        },
    ),
    (
        "a slot keeps that its request is aborted",
        |before, console, answer| {
            for (request, had) in before.opened(console) {
                request.life = had.life;
            }
            answer
        },
    ),
    (
        "a finish skips the rest of any record",
        |before, console, answer| {
            if !before.freed(console).is_empty() {
                console.connection.target = Target::Skip;
            }
            answer
        },
    ),
    (
        "a finish forgets the header bytes that are in",
        |before, console, answer| {
            if !before.freed(console).is_empty() {
                console.connection.held = 0;
            }
            answer
        },
    ),
    (
        "an abort spends the request in the next slot too",
        |_, console, answer| {
            let slots = &mut console.connection.slots;
            for slot in 0..SLOTS - 1 {
                if slots[slot].life == Life::Aborted {
                    slots[slot + 1].life = Life::Aborted;
                }
            }
            answer
        },
    ),
    (
        "what is said uses STDERR of slot 0",
        |before, console, answer| {
            if before.words[0] == "say" {
                console.connection.slots[0].err_used = true;
            }
            answer
        },
    ),
    (
        "a value that lacks is looked for in other requests",
        |before, console, answer| {
            if !answer.starts_with("fallback") {
                return answer;
            }
            let mut others = before.connection.slots.iter().map(|other| {
                let line = format!("value {} {} -", other.id, before.words[2]);
                console.answer(line.as_bytes())
            });
            others
                .find(|other| other.starts_with("store"))
                .unwrap_or(answer)
        },
    ),
    (
        "data in a step of its own is not counted",
        |before, console, answer| {
            if before.words[0] == "step" && answer.contains(" data ") {
                for (slot, before) in before.connection.slots.iter().enumerate() {
                    console.connection.slots[slot].stdin_shown = before.stdin_shown;
                }
            }
            answer
        },
    ),
];

fn noticed(round: &Round, mistake: Mistake) -> bool {
    let [one, other] = [0, 1].map(|run| answers(&round.runs[run].script, mistake));
    round.compared([&one, &other]).is_err()
}

#[test]
fn mixing_up_requests_is_noticed() {
    let rounds: Vec<Round> = (1..=30).map(round).collect();
    for round in &rounds[..5] {
        assert!(!noticed(round, |_, _, answer| answer));
    }
    for (name, mistake) in MISTAKES {
        assert!(rounds.iter().any(|round| noticed(round, mistake)), "{name}");
    }
}
