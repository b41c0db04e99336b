//! Two runs that are the same to one request: one among others, and one with all that is not its own struck out. Each
//! has turns of the pump of its own, anywhere. In neither is a call of the request refused because something waits, nor
//! does a byte of its records come while it is leaving; and nothing of it waits at the end.

use super::records::{query, record};
use super::{Cut, Draft, Script};
use crate::console::words::hex;
use crate::random::Random;
use crate::state::{Request, Turn, SLOTS};
use crate::wire::{kind, HEADER};
use std::collections::BTreeSet;

/// What a line is, and so what its answer counts for.
#[derive(Clone, Copy, Debug, PartialEq, Eq)]
pub enum Line {
    Start,
    /// It feeds bytes; its events say whose they are.
    Bytes,
    /// The call of the request with this number, and whether the request is leaving when it is made.
    Call {
        number: usize,
        leaving: bool,
    },
    /// A turn of the pump.
    Turn,
    /// A call that is not the request's.
    Other,
}

/// What the request does in both runs, in order.
#[derive(Clone, Debug, PartialEq, Eq)]
pub enum Own {
    Bytes(Vec<u8>),
    Call(String),
}

pub struct Run {
    pub script: Script,
    /// For each line of the script.
    pub lines: Vec<Line>,
}

pub struct Pair {
    pub id: u16,
    pub own: Vec<Own>,
    /// The run among others, and the one without them.
    pub runs: [Run; 2],
}

/// A run in the making.
struct Turns {
    draft: Draft,
    id: u16,
    lines: Vec<Line>,
    own: Vec<Own>,
    calls: usize,
    /// Bytes of the request that come before its next call.
    waiting: Vec<u8>,
    /// Of how many things that are done one is followed by a turn.
    pumping: u64,
    /// Of how many things that are done one is the request's; the others' share of the rest is as large as any's.
    talking: u64,
}

pub fn pair(seed: u64) -> Pair {
    let mut random = Random::new(seed);
    let ids = ids(&mut random);
    let id = random.pick(&ids);
    let mut among = Turns::new(&mut random, id);
    for _ in 0..among.draft.random.within(20, 140) {
        among.go_on(&ids);
    }
    among.end();
    let mut alone = Turns::new(&mut random, id);
    for own in &among.own {
        match own {
            Own::Bytes(bytes) => alone.waiting.extend(bytes),
            Own::Call(line) => {
                alone.own_waiting();
                alone.own_call(line.clone());
            }
        }
        // Records of the request that others came between can come at once here.
        if random.one_in(2) {
            alone.own_waiting();
        }
        alone.some_turns();
    }
    alone.own_waiting();
    alone.settle(Turns::waits);
    Pair {
        id,
        own: among.own,
        runs: [(among.draft, among.lines), (alone.draft, alone.lines)].map(|(draft, lines)| Run {
            script: draft.script,
            lines,
        }),
    }
}

/// As many as there are slots at most, so that no opening is refused for room.
fn ids(random: &mut Random) -> Vec<u16> {
    let number = random.pick(&[1, 2, 3, 5, SLOTS, SLOTS]);
    let mut ids = BTreeSet::new();
    while ids.len() < number {
        ids.insert(match random.below(3) {
            0 => random.pick(&[255, 256, 257, 513, 65_535]),
            _ => random.within(1, 20) as u16,
        });
    }
    ids.into_iter().collect()
}

impl Turns {
    fn new(random: &mut Random, id: u16) -> Turns {
        let mut draft = Draft::new(random.draw());
        draft.silent = true;
        draft.feeding = random.pick(&[0, 1, 2]);
        draft.cut = random.pick(&[Cut::Small, Cut::Headers, Cut::Whole, Cut::Any]);
        let pumping = random.pick(&[1, 2, 3, 8, 30]);
        let talking = random.pick(&[1, 2, 2, 16]);
        let mut turns = Turns {
            draft,
            id,
            lines: Vec::new(),
            own: Vec::new(),
            calls: 0,
            waiting: Vec::new(),
            pumping,
            talking,
        };
        turns.line("start", Line::Start);
        turns
    }

    fn line(&mut self, text: &str, kind: Line) {
        self.draft.line(text);
        self.note(kind);
    }

    /// The lines that were made since the last one are of this kind.
    fn note(&mut self, kind: Line) {
        self.lines.resize(self.draft.script.lines.len(), kind);
    }

    fn request(&self, id: u16) -> Option<Request> {
        let connection = &self.draft.console.connection;
        connection.find(id).map(|slot| connection.slots[slot])
    }

    fn leaving(&self) -> bool {
        let console = &self.draft.console;
        let slot = console.connection.find(self.id);
        slot.is_some_and(|slot| console.waits.leaving(slot))
    }

    fn waits(&self) -> bool {
        let console = &self.draft.console;
        let slot = console.connection.find(self.id);
        slot.is_some_and(|slot| console.waits.anything(slot))
    }

    fn pump(&mut self) {
        let allowance = self.draft.random.pick(&[0, 1, 1, 1, 2, 2, 3, 5, 16]);
        let more = self.draft.random.pick(&[0, 0, 1, 100]);
        let line = format!("pump {allowance} {}", allowance * 520 + more);
        self.line(&line, Line::Turn);
    }

    fn some_turns(&mut self) {
        while self.draft.random.one_in(self.pumping + 1) {
            self.pump();
        }
    }

    /// Turns until something is not so any more.
    fn settle(&mut self, still: fn(&Turns) -> bool) {
        while still(self) {
            self.pump();
        }
    }

    /// A call of the request. Where it would be refused because something waits, turns come before it.
    fn own_call(&mut self, line: String) {
        loop {
            let mut tried = self.draft.console.clone();
            if !tried.answer(line.as_bytes()).starts_with("refused 10") {
                break;
            }
            self.pump();
        }
        let kind = Line::Call {
            number: self.calls,
            leaving: self.leaving(),
        };
        self.calls += 1;
        self.line(&line, kind);
        self.own.push(Own::Call(line));
    }

    /// Bytes of the request's records, with turns among them. None come while it is leaving.
    fn own_bytes(&mut self, bytes: &[u8]) {
        self.settle(Turns::leaving);
        let mut rest = bytes;
        while rest.len() > 1 && self.draft.random.one_in(4) {
            let n = self.draft.random.within(1, rest.len() - 1);
            self.feed(&rest[..n]);
            self.some_turns();
            rest = &rest[n..];
        }
        self.feed(rest);
        self.own.push(Own::Bytes(bytes.to_vec()));
    }

    fn own_waiting(&mut self) {
        let bytes = std::mem::take(&mut self.waiting);
        if !bytes.is_empty() {
            self.own_bytes(&bytes);
        }
    }

    fn feed(&mut self, bytes: &[u8]) {
        assert!(self.draft.feed(bytes), "no record closes the connection");
        self.note(Line::Bytes);
    }

    /// The next thing that somebody does in the run among others.
    fn go_on(&mut self, ids: &[u16]) {
        let id = if self.draft.random.one_in(self.talking) {
            self.id
        } else {
            self.draft.random.pick(ids)
        };
        match self.draft.random.below(20) {
            0 => self.line("active", Line::Other),
            1 if id != self.id => self.management(),
            2..=9 => self.send(id, ids),
            _ => self.call(id),
        }
        self.some_turns();
    }

    fn management(&mut self) {
        let content = query(&mut self.draft.random);
        let kind = self.draft.random.pick(&[kind::GET_VALUES, 42, 1]);
        let bytes = record(&mut self.draft.random, kind, 0, &content);
        if self.may_feed(&bytes) {
            self.feed(&bytes);
        }
    }

    /// Whether the connection stays open by these bytes.
    fn may_feed(&self, bytes: &[u8]) -> bool {
        let mut tried = self.draft.console.clone();
        tried.answer(format!("feed 65536 {}", hex(bytes)).as_bytes());
        tried.connection.open
    }

    /// What a request sends next, and calls of any inside it.
    fn send(&mut self, id: u16, ids: &[u16]) {
        let bytes = match self.draft.random.below(12) {
            0 => self.draft.any_record(id),
            _ => self.draft.next_record(id),
        };
        if id == self.id {
            self.settle(Turns::leaving);
        }
        // Behind a call its header could close the connection, or a BEGIN of its id could be let through.
        let begins = bytes.get(1) == Some(&kind::BEGIN);
        if bytes.is_empty() || bytes.len() > 20_000 || !self.may_feed(&bytes) {
            return;
        }
        let mut from = 0;
        while !begins && bytes.len() - from > HEADER && self.draft.random.one_in(3) {
            let at = self.draft.random.within(from + 1, bytes.len() - 1);
            self.send_part(id, &bytes[from..at]);
            from = at;
            let other = self.draft.random.pick(ids);
            let other = self.draft.random.pick(&[other, self.id]);
            // The rest of a record of the request would come while it is leaving.
            if id != self.id || other != self.id {
                self.call(other);
            } else {
                self.call_that_stays();
            }
        }
        self.send_part(id, &bytes[from..]);
    }

    fn send_part(&mut self, id: u16, bytes: &[u8]) {
        if id == self.id {
            self.own_bytes(bytes);
        } else {
            self.feed(bytes);
        }
    }

    fn call(&mut self, id: u16) {
        let line = self.any_line(id);
        if id == self.id {
            self.own_call(line);
        } else {
            self.line(&line, Line::Other);
        }
    }

    /// A call of the request that does not make it leave.
    fn call_that_stays(&mut self) {
        let line = self.any_line(self.id);
        if !line.starts_with("queue finish") {
            self.own_call(line);
        }
    }

    /// A call that names a request. None finishes one without KEEP_CONN, which would close the connection.
    fn any_line(&mut self, id: u16) -> String {
        let request = self.request(id);
        let keep = request.is_none_or(|request| request.keep);
        let through = request.is_some_and(|request| request.spent() || request.turn == Turn::Done);
        let random = &mut self.draft.random;
        let status = random.pick(&[0, 1, 938, 4_294_967_295u32]);
        if keep && random.one_in(if through { 6 } else { 30 }) {
            return match random.below(3) {
                0 => format!("finish {id} {status} 64"),
                _ => format!("queue finish {id} {status}"),
            };
        }
        let stream = random.pick(&["stdout", "stderr"]);
        let n = match random.below(12) {
            0 => random.within(400, 1_024),
            1 | 2 => 0,
            _ => random.within(1, 40),
        };
        match random.below(24) {
            0..=10 => format!("queue say {id} {stream} {}", hex(&random.bytes(n))),
            11 | 12 => format!("queue end {id} {stream}"),
            13..=15 => {
                let room = n.next_multiple_of(8) + random.pick(&[0, 8, 8, 60]);
                format!("say {id} {stream} {} {room}", hex(&random.bytes(n)))
            }
            16 => format!("end {id} {stream} {}", random.pick(&[7, 8, 30])),
            17 => format!("finish {id} {status} {}", random.below(16)),
            18 => format!("area {id}"),
            19 => format!("counts {id}"),
            20 | 21 => format!("walk {id}"),
            22 => format!("pair {id} {}", random.below(3)),
            _ => format!("value {id} {} 6e6f6e65", hex(b"CONTENT_LENGTH")),
        }
    }

    /// Nothing of the request waits any more. What is left of it is looked at, also by what it does to calls and records,
    /// and it is finished at last.
    fn end(&mut self) {
        self.settle(Turns::waits);
        let id = self.id;
        for call in ["area", "counts", "walk"] {
            self.own_call(format!("{call} {id}"));
        }
        for stream in ["stdout", "stderr"] {
            self.own_call(format!("queue say {id} {stream} 2d"));
        }
        for kind in [kind::PARAMS, kind::STDIN, kind::DATA] {
            let bytes = record(&mut self.draft.random, kind, id, &[]);
            self.own_bytes(&bytes);
        }
        self.own_call(format!("say {id} stderr - 64"));
        if self.request(id).is_some_and(|request| request.keep) {
            let line = match self.draft.random.below(2) {
                0 => format!("finish {id} 7 64"),
                _ => format!("queue finish {id} 7"),
            };
            self.own_call(line);
        }
        self.settle(Turns::waits);
    }
}
