//! Lifts held to what they have to be: which ids are tried, what differs, and how often each kind of thing came.

use super::{lift, records, Record, Said, Verdict};
use crate::answer::Close;
use crate::random::Random;
use crate::wire::{kind, Header, HEADER};
use std::collections::{BTreeMap, BTreeSet};

/// The ids of a capture's records, management left out. The records behind a close count too.
pub fn ids_in(capture: &[u8]) -> BTreeSet<u16> {
    let all = records(capture);
    let ids = all.iter().filter_map(|record| record.header).map(|h| h.id);
    ids.filter(|&id| id != 0).collect()
}

/// Ids to lift out of a random capture: of a BEGIN, of any record, of the one that closes, of the last one, which may be
/// cut, one that is not there, and now and then 0.
pub fn ids_to_try(random: &mut Random, capture: &[u8]) -> Vec<u16> {
    let all = records(capture);
    let headers: Vec<Header> = all.iter().filter_map(|record| record.header).collect();
    let begins = headers.iter().filter(|header| header.kind == kind::BEGIN);
    let opened: Vec<u16> = begins.map(|header| header.id).collect();
    let any: Vec<u16> = headers.iter().map(|header| header.id).collect();
    let mut ids = Vec::new();
    for from in [opened, any] {
        if !from.is_empty() {
            ids.push(random.pick(&from));
        }
    }
    let (_, closing) = up_to_close(capture);
    for record in closing.iter().chain(all.last()) {
        // The id may be in, though the header is not.
        if let Some(&[high, low]) = record.bytes.get(2..4) {
            ids.push(u16::from_be_bytes([high, low]));
        }
    }
    // Id 0 is tried rarely, since its answer is always the same.
    ids.retain(|&id| id != 0);
    ids.push(absent(random, capture));
    if random.one_in(16) {
        ids.push(0);
    }
    ids.sort();
    ids.dedup();
    ids
}

/// An id that no record has, mostly one that is almost that of a record.
pub fn absent(random: &mut Random, capture: &[u8]) -> u16 {
    let ids = ids_in(capture);
    let near: Vec<u16> = ids
        .iter()
        .flat_map(|&id| [id ^ 1, id ^ 256, id.swap_bytes(), id.wrapping_add(1)])
        .filter(|id| *id != 0 && !ids.contains(id))
        .collect();
    if !near.is_empty() {
        return random.pick(&near);
    }
    loop {
        let id = random.draw() as u16;
        if id != 0 && !ids.contains(&id) {
            return id;
        }
    }
}

/// What is wrong with what was said, if something is.
pub fn difference(wanted: &Said, got: &Said) -> Option<String> {
    if wanted.line != got.line {
        return Some(format!("`{}` is said, and not `{}`", got.line, wanted.line));
    }
    if wanted.copy == got.copy {
        return None;
    }
    let pairs = wanted.copy.iter().zip(&got.copy);
    let same = pairs.take_while(|(a, b)| a == b).count();
    let (wanted, got) = (wanted.copy.len(), got.copy.len());
    Some(format!(
        "{got} bytes are copied, and not {wanted}; they differ from {same} on"
    ))
}

/// The lines of a replay that are about a request.
pub fn lines_of(lines: &str, id: u16) -> String {
    const EVENTS: [&str; 7] = ["open", "ready", "byte", "end", "abort", "refuse", "fault"];
    // `query 101`, `unknown 9` and `closed 11` have a number there too, which is no id.
    let id = id.to_string();
    let is_of = |line: &&str| {
        let mut words = line.split(' ');
        words.next().is_some_and(|word| EVENTS.contains(&word)) && words.next() == Some(&id)
    };
    lines
        .lines()
        .filter(is_of)
        .flat_map(|line| [line, "\n"])
        .collect()
}

/// Whether an opening of this id finds no room, in a capture that is replayed in these lines. If so, the copy need not
/// be replayed alike, since there is room for it alone.
pub fn lacks_room(lines: &str, id: u16) -> bool {
    let refused = format!("refuse {id} 2");
    lines.lines().any(|line| line == refused)
}

/// What is wrong with the lines that the copy is replayed in: they have to be those of the request, and then how it
/// stops. The copy of a clean capture stops open; no copy closes, also that of a capture that does.
pub fn replay_difference(whole: &str, copy: &str, id: u16, verdict: Verdict) -> Option<String> {
    let told = lines_of(whole, id);
    let stops: &[&str] = match verdict {
        Verdict::Clean => &["stop open\n"],
        _ => &["stop open\n", "stop cut\n"],
    };
    let alike = copy
        .strip_prefix(&told)
        .is_some_and(|stop| stops.contains(&stop));
    (!alike).then(|| "the copy is replayed otherwise than the whole".into())
}

/// What is wrong with a verdict, by the lines of the capture's replay.
pub fn verdict_difference(lines: &str, verdict: Verdict) -> Option<String> {
    let mut last = lines.lines().rev();
    let stop = last.next().unwrap_or_default();
    let alike = match verdict {
        Verdict::Clean => stop == "stop open",
        Verdict::Cut => stop == "stop cut",
        Verdict::Closed { cause, .. } => {
            let closed = format!("closed {}", cause.number());
            let said = last.next().unwrap_or_default();
            stop == "stop closed" && said.split(" at ").next() == Some(&closed)
        }
    };
    (!alike).then(|| format!("the verdict is {verdict}, and the replay ends in `{stop}`"))
}

/// The records before the one that closes, and that one.
fn up_to_close(capture: &[u8]) -> (Vec<Record<'_>>, Option<Record<'_>>) {
    let mut all = records(capture);
    // The check is the same for every id.
    match lift(capture, 1).map(|lifted| lifted.verdict) {
        Ok(Verdict::Closed { offset, .. }) => {
            let closing = all.iter().position(|r| r.offset as u64 == offset);
            let at = closing.expect("a close is at the start of a record");
            let closing = all[at];
            all.truncate(at);
            (all, Some(closing))
        }
        _ => (all, None),
    }
}

/// What has to come in a complete comparison.
const KINDS: [&str; 25] = [
    "clean",
    "cut",
    "closed 11",
    "closed 12",
    "closed 13",
    "closed 14",
    "cut in a header",
    "cut in content",
    "cut in padding",
    "bytes behind a close",
    "copies that are not empty",
    "with records before the first BEGIN",
    "ids without a BEGIN",
    "ids that are not there",
    "id 0",
    "opened twice",
    "unknown role",
    "no room",
    "padding dropped",
    "cut record copied",
    "closed 11 by its own record",
    "closed 12 by its own record",
    "copies of cut captures replayed",
    "copies of closed captures replayed",
    "copies of clean captures replayed",
];

/// What the line at the end shows of it.
const SHOWN: [&str; 8] = [
    "clean",
    "cut",
    "closed 11",
    "closed 12",
    "closed 13",
    "closed 14",
    "copies that are not empty",
    "with records before the first BEGIN",
];

/// How often each kind of thing came.
#[derive(Default)]
pub struct Tally(BTreeMap<&'static str, usize>);

impl Tally {
    fn add(&mut self, kind: &'static str, came: bool) {
        *self.0.entry(kind).or_default() += usize::from(came);
    }

    pub fn of(&self, kind: &str) -> usize {
        self.0.get(kind).copied().unwrap_or(0)
    }

    /// What never came.
    pub fn missing(&self) -> Vec<&'static str> {
        let never = KINDS.into_iter().filter(|kind| self.of(kind) == 0);
        never.collect()
    }

    /// The counts that a line of the comparison shows, and all of them.
    pub fn shown(&self) -> String {
        let counts = SHOWN.map(|kind| format!("{} {kind}", self.of(kind)));
        counts.join(", ")
    }

    pub fn all(&self) -> String {
        KINDS
            .iter()
            .map(|kind| format!("{:>9}  {kind}\n", self.of(kind)))
            .collect()
    }

    /// A capture, once.
    pub fn count_capture(&mut self, capture: &[u8], verdict: Verdict) {
        let kind = match verdict {
            Verdict::Clean => "clean",
            Verdict::Cut => "cut",
            Verdict::Closed { cause, .. } => match cause {
                Close::Version => "closed 11",
                Close::BeginLength => "closed 12",
                Close::QueryLength => "closed 13",
                Close::QueryMalformed { .. } => "closed 14",
            },
        };
        self.add(kind, true);
        let (_, closing) = up_to_close(capture);
        if let Some(closing) = closing {
            let behind = closing.offset + closing.bytes.len() < capture.len();
            self.add("bytes behind a close", behind);
            return;
        }
        let cut = records(capture).last().copied();
        if let Some(record) = cut.filter(|record| !record.is_whole()) {
            let kind = match record.header {
                None => "cut in a header",
                Some(h) if record.bytes.len() < HEADER + usize::from(h.content) => "cut in content",
                Some(_) => "cut in padding",
            };
            self.add(kind, true);
        }
    }

    /// A lift, with the lines of the capture's replay.
    pub fn count_lift(&mut self, capture: &[u8], id: u16, wanted: &Said, lines: &str) {
        self.add("id 0", id == 0);
        self.add("copies that are not empty", !wanted.copy.is_empty());
        let is_there = ids_in(capture).contains(&id);
        self.add("ids that are not there", id != 0 && !is_there);
        if !is_there {
            return;
        }
        let (all, closing) = up_to_close(capture);
        let own = |header: &Header| header.id == id;
        let headers: Vec<Header> = all.iter().filter_map(|r| r.header).filter(own).collect();
        let begin = |header: &Header| header.kind == kind::BEGIN;
        let first = headers.iter().position(begin);
        self.add("with records before the first BEGIN", first > Some(0));
        self.add("ids without a BEGIN", first.is_none());
        let copied = &headers[first.unwrap_or(headers.len())..];
        let begins = copied.iter().filter(|h| begin(h)).count();
        self.add("opened twice", begins > 1);
        self.add("padding dropped", copied.iter().any(|h| h.padding > 0));
        let role = format!("refuse {id} 3");
        self.add("unknown role", lines.lines().any(|line| line == role));
        self.add("no room", lacks_room(lines, id));
        let cut = records(&wanted.copy).last().is_some_and(|r| !r.is_whole());
        self.add("cut record copied", cut);
        if closing.and_then(|r| r.header).is_some_and(|h| own(&h)) {
            let by = |n| wanted.line.starts_with(n);
            self.add("closed 11 by its own record", by("closed 11 "));
            self.add("closed 12 by its own record", by("closed 12 "));
        }
    }

    /// A copy that was replayed, of a capture with this verdict.
    pub fn count_replay(&mut self, verdict: Verdict) {
        let kind = match verdict {
            Verdict::Clean => "copies of clean captures replayed",
            Verdict::Cut => "copies of cut captures replayed",
            Verdict::Closed { .. } => "copies of closed captures replayed",
        };
        self.add(kind, true);
    }
}
