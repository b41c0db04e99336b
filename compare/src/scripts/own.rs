//! One request on its own: the records and the calls that it brings to a shuffle. It is made on a twin that has no
//! other request, so that each of them fits the state that it meets.

use super::records::{begin_body, record};
use super::Draft;
use crate::answer::{Event, Stream};
use crate::console::words::hex;
use crate::state::{Request, Turn, AREA, BEGIN_BODY};
use crate::wire::{kind, Header, HEADER};

/// What a request brings to a run, in the order that every shuffle keeps. Its id may be opened several times.
pub struct Own {
    pub id: u16,
    pub items: Vec<Item>,
    /// Whether it ends up active, and then with KEEP_CONN or without.
    pub keep: Option<bool>,
    /// A `value` that asks for a name which it mostly has at the end.
    pub value: String,
    /// How often it is finished inside one of its records.
    pub finished_inside: usize,
}

pub enum Item {
    /// A call between its records.
    Call(String),
    /// A whole record and the calls inside it: after how many of its bytes each comes, at least one and not all.
    Record {
        bytes: Vec<u8>,
        calls: Vec<(usize, String)>,
    },
}

/// Some records and calls of a request that never close the connection.
pub fn own(seed: u64, id: u16) -> Own {
    let mut draft = Draft::new(seed);
    draft.line("start");
    let (mut items, mut finished_inside) = (Vec::new(), 0);
    let length = draft.random.within(3, 30);
    while items.len() < length {
        // Before a request is ready, most calls are refused alike.
        let ready = draft.request(id).is_some_and(|it| it.params_ended());
        if draft.random.one_in(if ready { 2 } else { 5 }) {
            items.push(Item::Call(draft.own_call(id)));
        } else {
            let bytes = draft.own_records(id);
            for bytes in whole_records(&bytes) {
                if let Some((item, finished)) = draft.sent(id, bytes) {
                    items.push(item);
                    finished_inside += finished;
                }
            }
        }
    }
    draft.value(id);
    Own {
        id,
        items,
        keep: draft.request(id).map(|request| request.keep),
        value: draft.last_line(),
        finished_inside,
    }
}

impl Draft {
    fn request(&self, id: u16) -> Option<Request> {
        let connection = &self.console.connection;
        connection.find(id).map(|slot| connection.slots[slot])
    }

    fn last_line(&self) -> String {
        let line = self.script.lines.last().cloned().unwrap_or_default();
        String::from_utf8(line).expect("it was made as text")
    }

    /// A call that names the request, also one that is refused.
    fn own_call(&mut self, id: u16) -> String {
        // Mostly a request that is through is finished, so that its slot can be taken again.
        let through = self
            .request(id)
            .is_some_and(|request| request.spent() || request.turn == Turn::Done);
        if self.random.one_in(if through { 3 } else { 24 }) {
            self.own_finish(id);
            return self.last_line();
        }
        match self.random.below(20) {
            0..=4 => self.value(id),
            5..=6 => self.pair(id),
            7..=9 => {
                self.line(format!("walk {id}"));
            }
            10..=13 => self.say(id),
            14..=15 => self.end(id),
            16..=17 => {
                self.line(format!("area {id}"));
            }
            _ => {
                self.line(format!("counts {id}"));
            }
        }
        self.last_line()
    }

    fn own_finish(&mut self, id: u16) {
        let status = self.random.pick(&[0, 1, 938, 4_294_967_295u32]);
        if self.request(id).is_some_and(|request| !request.keep) {
            // It would close the connection, so it is refused: no finish has room in 15 bytes.
            let room = self.random.below(16);
            self.line(format!("finish {id} {status} {room}"));
        } else if self.random.one_in(3) {
            self.finish(id);
        } else {
            self.line(format!("finish {id} {status} 64"));
        }
    }

    /// What the request sends next, in one record or several.
    fn own_records(&mut self, id: u16) -> Vec<u8> {
        let body = match self.request(id).map(|request| request.turn) {
            Some(Turn::Stdin) => Some(Stream::Stdin),
            Some(Turn::Data) => Some(Stream::Data),
            _ => None,
        };
        if let Some(stream) = body.filter(|_| self.random.one_in(3)) {
            return self.rest_of_body(id, stream);
        }
        if !self.random.one_in(14) {
            return self.next_record(id);
        }
        match self.random.below(9) {
            // A BEGIN of any length: a fault or nothing. Where it would close the connection, it is left out.
            0 => {
                let n = self.random.pick(&[0, 7, 9, 8, 16, 264]);
                let content = self.random.bytes(n);
                record(&mut self.random, kind::BEGIN, id, &content)
            }
            1 => {
                let content = begin_body(&mut self.random);
                record(&mut self.random, kind::BEGIN, id, &content)
            }
            2 | 3 => {
                let kind = self.random.pick(&[kind::PARAMS, kind::STDIN, kind::DATA]);
                let n = self.random.pick(&[0, 0, 3, 20, AREA + 1]);
                let content = self.random.bytes(n);
                record(&mut self.random, kind, id, &content)
            }
            4 => self.brimming_params(id),
            5 => self.malformed_params(id),
            6 => {
                let n = self.random.pick(&[0, 0, 5]);
                let content = self.random.bytes(n);
                record(&mut self.random, kind::ABORT, id, &content)
            }
            _ => self.any_record(id),
        }
    }

    /// What a body lacks of the length that is stated for it, or almost, and its end.
    fn rest_of_body(&mut self, id: u16, stream: Stream) -> Vec<u8> {
        let n = self.aimed(id, stream);
        let content = self.random.bytes(n);
        let mut bytes = Vec::new();
        if n > 0 {
            bytes = record(&mut self.random, stream as u8, id, &content);
        }
        bytes.extend(record(&mut self.random, stream as u8, id, &[]));
        bytes
    }

    /// Sends a whole record with calls inside it, and answers how many of them finished the request. None where it
    /// would close the connection; then nothing happened.
    fn sent(&mut self, id: u16, bytes: Vec<u8>) -> Option<(Item, usize)> {
        let before = self.console.clone();
        let (mut calls, mut from, mut finished) = (Vec::new(), 0, 0);
        for at in self.stops(&bytes) {
            if from < at {
                self.line(format!("feed 65536 {}", hex(&bytes[from..at])));
                from = at;
            }
            // Directly behind its last byte, a refused opening is the last event in every shuffle.
            let refused = matches!(self.console.event, Some(Event::Refuse { .. }));
            if refused && at == HEADER + BEGIN_BODY {
                let room = self.room(16);
                calls.push((at, format!("owed {room}")));
            } else {
                calls.push((at, self.own_call(id)));
                // Only a finish says whether the connection is open.
                finished += usize::from(self.last().ends_with(" open"));
            }
        }
        self.line(format!("feed 65536 {}", hex(&bytes[from..])));
        if !self.open() {
            self.console = before;
            return None;
        }
        Some((Item::Record { bytes, calls }, finished))
    }

    /// Where calls come inside a record, if any do: in its header, at the edges of its content, or anywhere.
    fn stops(&mut self, bytes: &[u8]) -> Vec<usize> {
        let mut stops = Vec::new();
        let last = bytes.len() - 1;
        if self.random.one_in(5) {
            for _ in 0..self.random.within(1, 3) {
                stops.push(match self.random.below(4) {
                    0 => self.random.within(1, 7),
                    1 => self.random.pick(&[7, 8, 9]),
                    _ => self.random.within(1, last),
                });
            }
        }
        // The reply that a refused opening is owed can be asked for before its padding.
        if bytes[1] == kind::BEGIN && self.random.one_in(2) {
            stops.push(HEADER + BEGIN_BODY);
        }
        stops.retain(|&stop| stop <= last);
        stops.sort_unstable();
        stops
    }
}

/// Bytes divided into the records that they are.
fn whole_records(mut bytes: &[u8]) -> Vec<Vec<u8>> {
    let mut records = Vec::new();
    while let Some(header) = bytes.first_chunk::<HEADER>() {
        let header = Header::read(header);
        let length = HEADER + usize::from(header.content) + usize::from(header.padding);
        let (record, rest) = bytes.split_at(length);
        records.push(record.to_vec());
        bytes = rest;
    }
    records
}
