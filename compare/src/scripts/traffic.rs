//! What a web server sends: requests side by side, their records cut anywhere; and the same with damage.

use super::lists::any_list;
use super::records::{begin_body, query, record};
use super::{stream, Draft};
use crate::answer::Stream;
use crate::console::words::hex;
use crate::state::{Life, Turn, AREA};
use crate::wire::kind;

impl Draft {
    /// A stretch of a connection.
    pub(super) fn traffic(&mut self, damaged: bool) {
        self.choose_cut();
        if !self.open() || !self.silent && self.random.one_in(5) {
            self.start();
        }
        for _ in 0..self.random.within(10, 70) {
            let mut bytes = Vec::new();
            let mut ids = Vec::new();
            // Several records at once, of different requests: each fits the state as it is now.
            for _ in 0..self.random.within(1, 4) {
                let id = self.sending_id();
                if !ids.contains(&id) {
                    ids.push(id);
                    let next = if damaged && self.random.one_in(6) {
                        self.damaged_record(id)
                    } else {
                        self.next_record(id)
                    };
                    bytes.extend(next);
                }
            }
            if self.random.one_in(12) {
                let content = query(&mut self.random);
                bytes.extend(record(&mut self.random, kind::GET_VALUES, 0, &content));
            }
            if !self.feed(&bytes) && (self.silent || !self.restart()) {
                return;
            }
            if !self.silent && self.random.one_in(8) {
                self.finish_some();
            }
            if damaged && !self.silent && self.random.one_in(6) {
                self.change_some();
            }
        }
    }

    /// What a web server sends on a whole connection, all of it fed at once, or cut into a few feeds.
    pub(super) fn whole_connection(&mut self) {
        let all = stream(self.random.draw());
        let mut rest = &all[..all.len().min(60_000)];
        self.choose_cut();
        self.start();
        let feeds = self.random.pick(&[1, 1, 2, 5]);
        for i in 0..feeds {
            let n = if i + 1 == feeds {
                rest.len()
            } else {
                self.random.within(0, rest.len())
            };
            let used = self.feed_line(&rest[..n]);
            rest = &rest[n..];
            self.line("owed 64");
            if self.random.one_in(2) {
                self.any_call();
            }
            // A feed that a close ended is followed by one that is refused, with no bytes or with some.
            if used.is_none() || !self.open() {
                let piece = self.random.bytes(2);
                let n = self.random.index(3);
                self.line(format!("feed 1 {}", hex(&piece[..n])));
                self.line("owed 64");
                return;
            }
        }
    }

    /// The connection is closed, or a call was refused that feeds: some calls meet that state, then all begins anew.
    /// Answers whether it did.
    fn restart(&mut self) -> bool {
        for _ in 0..self.random.below(4) {
            self.any_call();
        }
        if self.random.one_in(4) {
            self.every_call();
        }
        self.start();
        self.open()
    }

    /// An active request, or one to be opened.
    fn sending_id(&mut self) -> u16 {
        let active = self.active_ids();
        let fresh = match active.len() {
            16 if self.crowd => 1,
            _ if self.crowd => 2,
            0..=2 => 2,
            3..=5 => 8,
            _ => 24,
        };
        if active.is_empty() || self.random.one_in(fresh) {
            self.any_id()
        } else {
            self.random.pick(&active)
        }
    }

    /// A record that this id may send now.
    pub(super) fn next_record(&mut self, id: u16) -> Vec<u8> {
        let connection = &self.console.connection;
        let Some(slot) = connection.find(id) else {
            let full = connection.lowest_free().is_none();
            let list = any_list(&mut self.random);
            self.lists.insert(id, list);
            let mut body = begin_body(&mut self.random);
            // The role is looked at before the room.
            if full && self.random.one_in(3) {
                body[1] = self.random.byte();
            }
            return record(&mut self.random, kind::BEGIN, id, &body);
        };
        let request = connection.slots[slot];
        if request.life != Life::Live {
            return self.any_record(id);
        }
        if self.random.one_in(40) {
            return record(&mut self.random, kind::ABORT, id, &[]);
        }
        match request.turn {
            Turn::Params => self.next_params(id),
            Turn::Stdin => self.next_input(id, Stream::Stdin),
            Turn::Data => self.next_input(id, Stream::Data),
            Turn::Done if self.random.one_in(8) => self.any_record(id),
            Turn::Done if self.random.one_in(6) => {
                // An end that comes twice, or that this role has not.
                let kind = self.random.pick(&[kind::STDIN, kind::DATA]);
                record(&mut self.random, kind, id, &[])
            }
            Turn::Done => Vec::new(),
        }
    }

    /// The next part of the list, cut anywhere; behind it the empty record.
    fn next_params(&mut self, id: u16) -> Vec<u8> {
        let rest = self.lists.remove(&id).unwrap_or_default();
        let n = match self.random.below(3) {
            0 => self.random.within(rest.len() / 3, rest.len()),
            _ => rest.len(),
        };
        let n = if rest.is_empty() { 0 } else { n.max(1) };
        let bytes = record(&mut self.random, kind::PARAMS, id, &rest[..n]);
        self.lists.insert(id, rest[n..].to_vec());
        bytes
    }

    fn next_input(&mut self, id: u16, stream: Stream) -> Vec<u8> {
        let n = match self.random.below(30) {
            0..=9 => 0,
            10 => self.random.within(100, 700),
            11..=20 => self.aimed(id, stream),
            _ => self.random.within(1, 24),
        };
        let content = self.random.bytes(n);
        record(&mut self.random, stream as u8, id, &content)
    }

    /// Any type, any content.
    pub(super) fn any_record(&mut self, id: u16) -> Vec<u8> {
        let kind = match self.random.below(4) {
            0 => self.random.byte(),
            _ => self.random.within(1, 11) as u8,
        };
        let n = self.random.pick(&[0, 0, 1, 8, 8, 20]);
        let content = self.random.bytes(n);
        record(&mut self.random, kind, id, &content)
    }

    /// A record that should not come, or not like this.
    fn damaged_record(&mut self, id: u16) -> Vec<u8> {
        match self.random.below(15) {
            0 => {
                let mut bytes = self.next_record(id);
                if !bytes.is_empty() && self.random.one_in(2) {
                    bytes[0] = self.random.pick(&[0, 2, 129, 255]);
                }
                bytes
            }
            1 => {
                // Wrong length of a BEGIN: a close, a fault or nothing, as the id stands.
                let n = self.random.pick(&[0, 7, 9, 8, 16, 264]);
                let content = self.random.bytes(n);
                record(&mut self.random, kind::BEGIN, id, &content)
            }
            2 => {
                let content = begin_body(&mut self.random);
                record(&mut self.random, kind::BEGIN, id, &content)
            }
            3 => {
                let kind = self.random.pick(&[kind::PARAMS, kind::STDIN, kind::DATA]);
                let n = self.random.pick(&[0, 0, 3, AREA, AREA + 1]);
                let content = self.random.bytes(n);
                record(&mut self.random, kind, id, &content)
            }
            4 => {
                let kind = self
                    .random
                    .pick(&[0, 3, 6, 7, 9, 10, 11, 12, 42, 127, 128, 255]);
                let n = self.random.pick(&[0, 5, 16]);
                let content = self.random.bytes(n);
                record(&mut self.random, kind, id, &content)
            }
            5 => self.brimming_params(id),
            6..=8 => self.malformed_params(id),
            9 => self.any_record(0),
            10 | 11 => self.malformed_query(),
            12 => {
                // The same record twice: a second end, a second abort.
                let kind = self
                    .random
                    .pick(&[kind::ABORT, kind::STDIN, kind::DATA, kind::PARAMS]);
                let mut bytes = record(&mut self.random, kind, id, &[]);
                bytes.extend(record(&mut self.random, kind, id, &[]));
                bytes
            }
            13 => {
                let n = self.random.within(1, 40);
                self.random.bytes(n)
            }
            _ => self.any_record(id),
        }
    }

    /// PARAMS that fill the area to its last byte, or pass it by one.
    pub(super) fn brimming_params(&mut self, id: u16) -> Vec<u8> {
        let connection = &self.console.connection;
        let length = connection
            .find(id)
            .map_or(0, |slot| usize::from(connection.slots[slot].length));
        let room = AREA.saturating_sub(length);
        let n = room + self.random.index(2);
        let content = self.random.bytes(n);
        self.lists.insert(id, Vec::new());
        record(&mut self.random, kind::PARAMS, id, &content)
    }

    /// What no traffic can bring about: a malformed pair or a name that comes twice after PARAMS has ended, a stated
    /// length that is another, a count that is almost full, a spent request that is live.
    fn change_some(&mut self) {
        if self.random.one_in(2) && self.poke_broken() {
            return;
        }
        let id = self.some_id();
        match (self.console.connection.find(id), self.random.below(6)) {
            (Some(slot), 0 | 1) => {
                self.poke_name_twice(slot);
            }
            (Some(slot), 2) => self.poke_stated(slot),
            (Some(slot), 3) => self.poke_shown(slot),
            _ => self.poke_live(),
        }
    }

    fn finish_some(&mut self) {
        let active = self.active_ids();
        if active.is_empty() {
            return;
        }
        let id = self.random.pick(&active);
        if self.random.one_in(2) {
            self.line(format!("area {id}"));
            self.line(format!("counts {id}"));
        }
        let status = self.random.pick(&[0, 1, 938, 4_294_967_295u32]);
        self.line(format!("finish {id} {status} 64"));
    }
}
