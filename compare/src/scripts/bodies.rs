//! Bodies against the lengths that lists state for them: short, exact, over, or stated in a way that counts for
//! nothing; counts that are almost full, and lists that are damaged before a body ends.

use super::lists::{append_pair, few_pairs, Named};
use super::records::{begin_body, record};
use super::{Cut, Draft};
use crate::answer::Stream;
use crate::console::text::stream_text;
use crate::pairs::{Pair, Pairs};
use crate::random::Random;
use crate::state::{area, Turn, AREA};
use crate::stated::{name_of, stated_length};
use crate::wire::kind;

const STREAMS: [Stream; 2] = [Stream::Stdin, Stream::Data];

/// Lengths at the edge of those that are stated. The last, taken round 32 bits, are small.
const EDGES: [&str; 7] = [
    "4294967293",
    "4294967294",
    "4294967295",
    "9999999999",
    "4294967296",
    "4294967300",
    "8589934600",
];

/// Almost a number.
const ODD: [&str; 19] = [
    "",
    " ",
    "-",
    "+5",
    "-5",
    " 5",
    "5 ",
    "5\n",
    "5\0",
    "\x005",
    "0x5",
    "5a",
    "a",
    "1e1",
    "5.0",
    "5,0",
    "/",
    ":",
    "12345678901",
];

/// A value that states a length, or almost does. Zeros before it count as digits, of which there are ten at most.
fn any_length(random: &mut Random) -> Vec<u8> {
    let small = random.below(40);
    match random.below(12) {
        0..=5 => small.to_string(),
        6 | 7 => format!("{small:0digits$}", digits = random.within(2, 10)),
        8 => format!("{small:0digits$}", digits = random.within(10, 12)),
        9 => random.pick(&EDGES).into(),
        _ => random.pick(&ODD).into(),
    }
    .into_bytes()
}

/// Pairs that state lengths: of one body or of both, under their names or under almost the same.
pub fn stating(random: &mut Random) -> Vec<Named> {
    let mut pairs = Vec::new();
    for stream in STREAMS {
        if !random.one_in(4) {
            pairs.push((name_of(stream).to_vec(), any_length(random)));
        }
        if random.one_in(3) {
            pairs.push((almost(random, name_of(stream)), any_length(random)));
        }
    }
    if random.one_in(3) {
        pairs.reverse();
    }
    pairs
}

/// A name that is not quite this one. Mostly one poke of its last byte makes it the same.
fn almost(random: &mut Random, name: &[u8]) -> Vec<u8> {
    match random.below(9) {
        0 => name.to_ascii_lowercase(),
        1 => name[..name.len() - 1].to_vec(),
        2 => [name, b"S"].concat(),
        _ => [&name[..name.len() - 1], b"X"].concat(),
    }
}

impl Draft {
    /// Some requests side by side, mostly filters, since they have both bodies. Ids are opened again and again.
    pub(super) fn bodies(&mut self) {
        self.choose_cut();
        // Few lines to a record, so that many bodies end; and few other calls, some of which finish a request.
        if !self.random.one_in(4) {
            self.cut = Cut::Whole;
        }
        self.chatter = 30;
        self.start();
        let ids: Vec<u16> = (0..self.random.within(1, 3))
            .map(|_| self.any_id())
            .collect();
        for _ in 0..self.random.within(20, 60) {
            let id = self.random.pick(&ids);
            self.body_step(id);
            if !self.open() {
                self.start();
            }
            if self.random.one_in(2) {
                self.line(format!("counts {id}"));
            }
        }
    }

    /// What comes next for a request, as it stands.
    fn body_step(&mut self, id: u16) {
        let connection = &self.console.connection;
        let Some(slot) = connection.find(id) else {
            return self.begin_filter(id);
        };
        let request = connection.slots[slot];
        match (request.spent(), request.turn) {
            (true, _) => self.spent_step(id, slot),
            (_, Turn::Params) => {
                let mut list = few_pairs(&mut self.random);
                if !self.random.one_in(4) {
                    list.clear();
                    for (name, value) in stating(&mut self.random) {
                        append_pair(&mut list, &name, &value);
                    }
                }
                let mut bytes = Vec::new();
                if !list.is_empty() {
                    bytes = record(&mut self.random, kind::PARAMS, id, &list);
                }
                bytes.extend(record(&mut self.random, kind::PARAMS, id, &[]));
                self.feed(&bytes);
            }
            (_, Turn::Stdin) => self.stream_step(id, slot, Stream::Stdin),
            (_, Turn::Data) => self.stream_step(id, slot, Stream::Data),
            // The same list once more, for another body.
            (_, Turn::Done) if self.random.one_in(2) => {
                let turn = self.random.pick(&["stdin", "data"]);
                self.line(format!("poke turn {slot} {turn}"));
            }
            (_, Turn::Done) => self.last_step(id),
        }
    }

    fn begin_filter(&mut self, id: u16) {
        let mut body = begin_body(&mut self.random);
        body[..3].copy_from_slice(&[0, self.random.pick(&[1, 3, 3]), 1]);
        let bytes = record(&mut self.random, kind::BEGIN, id, &body);
        self.feed(&bytes);
    }

    /// Content that is skipped and must not count; then the request is finished, or made live again.
    fn spent_step(&mut self, id: u16, slot: usize) {
        let kind = self.random.pick(&[kind::STDIN, kind::DATA]);
        let n = self.random.within(0, 12);
        let content = self.random.bytes(n);
        let bytes = record(&mut self.random, kind, id, &content);
        self.feed(&bytes);
        self.line(format!("counts {id}"));
        match self.random.below(3) {
            0 => {
                self.line(format!("poke spent {slot} live"));
            }
            1 => self.last_step(id),
            _ => {}
        }
    }

    /// Content or the end of a body; or something that happens to it before.
    fn stream_step(&mut self, id: u16, slot: usize, stream: Stream) {
        match self.random.below(12) {
            0..=5 => {
                let n = self.aimed(id, stream);
                let content = self.random.bytes(n);
                let mut bytes = record(&mut self.random, stream as u8, id, &content);
                if n > 1 && self.random.one_in(6) {
                    return self.halved(id, &bytes, 8 + n / 2);
                }
                if n > 0 && self.random.one_in(2) {
                    bytes.extend(record(&mut self.random, stream as u8, id, &[]));
                }
                self.feed(&bytes);
            }
            6 => self.end_body(id, stream),
            7..=10 => {
                match self.random.below(4) {
                    0 => self.poke_shown(slot),
                    1 => self.poke_edge(slot),
                    _ => self.poke_stated(slot),
                }
                // Mostly at once, before something else hides what the poke did.
                if !self.random.one_in(4) {
                    self.end_body(id, stream);
                }
            }
            _ => {
                let kind = self.random.pick(&[kind::ABORT, kind::BEGIN, kind::PARAMS]);
                let bytes = record(&mut self.random, kind, id, &[]);
                self.feed(&bytes);
            }
        }
    }

    /// A count inside a record has the bytes that were shown so far. A finish there makes the rest count for nobody.
    fn halved(&mut self, id: u16, bytes: &[u8], at: usize) {
        self.feed(&bytes[..at]);
        self.line(format!("counts {id}"));
        if self.random.one_in(4) {
            self.line(format!("finish {id} 0 64"));
        }
        if self.open() {
            self.feed(&bytes[at..]);
        }
    }

    fn end_body(&mut self, id: u16, stream: Stream) {
        let bytes = record(&mut self.random, stream as u8, id, &[]);
        self.feed(&bytes);
    }

    /// The request goes, or breaks a rule behind its last stream.
    fn last_step(&mut self, id: u16) {
        if self.random.one_in(4) {
            let bytes = record(&mut self.random, kind::STDIN, id, b"ab");
            self.feed(&bytes);
        } else {
            self.line(format!("finish {id} 0 64"));
        }
        self.line(format!("counts {id}"));
    }

    fn list_in(&self, slot: usize) -> &[u8] {
        let length = usize::from(self.console.connection.slots[slot].length).min(AREA);
        &self.console.store[area(slot)][..length]
    }

    /// How many bytes to send of a body: mostly what it lacks of the stated length, or one more or one less.
    pub(super) fn aimed(&mut self, id: u16, stream: Stream) -> usize {
        let connection = &self.console.connection;
        let lacking = connection.find(id).and_then(|slot| {
            let shown = connection.slots[slot].shown(stream);
            stated_length(self.list_in(slot), stream)?.checked_sub(shown)
        });
        match lacking {
            Some(n @ 0..=100) if !self.random.one_in(4) => {
                let n = n as usize;
                self.random.pick(&[n, n, n, n + 1, n.saturating_sub(1)])
            }
            _ => self.random.within(1, 24),
        }
    }

    /// Mostly the body whose turn it is.
    fn body_of(&mut self, slot: usize) -> Stream {
        match self.console.connection.slots[slot].turn {
            _ if self.random.one_in(6) => self.random.pick(&STREAMS),
            Turn::Data => Stream::Data,
            _ => Stream::Stdin,
        }
    }

    /// A count that is full, almost full, or near the length that is stated.
    pub(super) fn poke_shown(&mut self, slot: usize) {
        let stream = self.body_of(slot);
        let stated = stated_length(self.list_in(slot), stream).unwrap_or(0);
        let count = match self.random.below(4) {
            0 => u32::MAX,
            1 => u32::MAX - self.random.below(24) as u32,
            2 => stated.saturating_sub(self.random.below(3) as u32),
            _ => self.random.draw() as u32 >> self.random.below(32),
        };
        let stream = stream_text(stream);
        self.line(format!("poke shown {slot} {stream} {count}"));
    }

    /// A value of ten bytes becomes a length at the edge, and the count one that is full or almost.
    fn poke_edge(&mut self, slot: usize) {
        let list = self.list_in(slot).to_vec();
        let stream = self.body_of(slot);
        let fits = |pair: &Pair| pair.name(&list) == name_of(stream) && pair.value_length == 10;
        let Some(pair) = Pairs::new(&list).find(fits) else {
            return self.poke_shown(slot);
        };
        let edge = self.random.pick(&EDGES[..3]);
        for (i, byte) in edge.bytes().enumerate() {
            if list[pair.value_at + i] != byte {
                self.poke_byte(slot, pair.value_at + i, byte);
            }
        }
        let count = u32::MAX - self.random.below(3) as u32;
        let stream = stream_text(stream);
        self.line(format!("poke shown {slot} {stream} {count}"));
    }

    /// Damages a list where it states a length, or next to it.
    pub(super) fn poke_stated(&mut self, slot: usize) {
        let list = self.list_in(slot).to_vec();
        let stream = self.body_of(slot);
        let name = name_of(stream);
        let pairs: Vec<Pair> = Pairs::new(&list).collect();
        let Some(k) = pairs.iter().position(|pair| pair.name(&list) == name) else {
            return self.poke_almost(slot, &list, name);
        };
        let pair = pairs[k];
        let from = if k == 0 { 0 } else { pairs[k - 1].end() };
        match self.random.below(10) {
            0 | 1 | 9 => self.poke_almost(slot, &list, name),
            // The list ends inside the pair, or just behind it.
            2 => {
                let length = self
                    .random
                    .pick(&[pair.end() - 1, pair.value_at, pair.end()]);
                self.line(format!("poke length {slot} {length}"));
            }
            // The pair behind it is malformed, which must not matter, or it is itself.
            3 if pair.end() < list.len() => self.poke_byte(slot, pair.end(), 255),
            4 => self.poke_byte(slot, from, 255),
            5 => self.poke_byte(slot, pair.name_at, b'c'),
            _ if pair.value_length == 0 => self.poke_byte(slot, pair.name_at - 1, 1),
            _ => {
                let place = pair.value_at + self.random.index(pair.value_length);
                let byte = self.random.pick(b"0123459/: +-\n\0\xb5\xff");
                self.poke_byte(slot, place, byte);
            }
        }
    }

    fn poke_byte(&mut self, slot: usize, place: usize, byte: u8) {
        self.line(format!("poke byte {} {byte}", slot * AREA + place));
    }

    /// A name that differs from this one in its last byte becomes the same, and so comes twice or for the first time.
    fn poke_almost(&mut self, slot: usize, list: &[u8], name: &[u8]) {
        let (&last, before) = name.split_last().expect("no such name is empty");
        let found = Pairs::new(list).find(|pair| {
            let other = pair.name(list);
            other != name && other.len() == name.len() && other.starts_with(before)
        });
        if let Some(pair) = found {
            self.poke_byte(slot, pair.name_at + before.len(), last);
        }
    }
}

#[cfg(test)]
mod tests {
    use super::*;
    use crate::stated::stated_by;

    #[test]
    fn lengths_of_every_kind() {
        let mut random = Random::new(1);
        let (mut stated, mut large, mut unstated) = (0, 0, 0);
        for _ in 0..1_000 {
            match stated_by(&any_length(&mut random)) {
                Some(0..=39) => stated += 1,
                Some(_) => large += 1,
                None => unstated += 1,
            }
        }
        assert!(
            stated > 400 && large > 10 && unstated > 200,
            "{stated} {large} {unstated}"
        );
    }
}
