//! What a station sends: replies to open requests, cut anywhere; and the same with damage, which closes.

use super::Draft;
use crate::random::Random;
use crate::scripts::lists::{any_value, append_long_pair, append_pair, damaged_list, filled_list};
use crate::scripts::records::record;
use crate::server::Server;
use crate::state::SLOTS;
use crate::wire::{end_body, kind};

impl Draft {
    /// Requests written and replies read, side by side. With damage it ends in a close.
    pub(super) fn exchange(&mut self, damaged: bool) {
        self.choose_cut();
        if !self.open() || !self.bench.server.in_shape() || self.random.one_in(3) {
            self.line("start");
        }
        let few = self.random.within(1, 5);
        for _ in 0..self.random.within(4, 24) {
            if self.open_ids().len() < few {
                let (id, role) = (self.free_id(), self.random.within(1, 3));
                self.with_room(&format!("open {id} {role} keep"));
            }
            match self.random.below(12) {
                0..=4 => {
                    let id = self.open_id();
                    for _ in 0..self.random.within(1, 4) {
                        self.write_on(id);
                    }
                }
                5 => self.any_call(),
                _ => {
                    let bytes = self.replies();
                    if !self.send(&bytes) {
                        return;
                    }
                }
            }
        }
        if damaged {
            self.closing();
        }
    }

    /// Some records one after another, each fit for what the ones before it left. What is left of a record that the
    /// state has read half comes first.
    fn replies(&mut self) -> Vec<u8> {
        let mut ahead = self.bench.server.clone();
        let mut bytes = self.rest_of_record();
        read(&mut ahead, &bytes);
        for _ in 0..self.random.within(1, 5) {
            let mut next = next_reply(&mut self.random, &ahead);
            // Of a header that is begun the rest is sent, whatever it makes of it.
            next.drain(..ahead.held.min(8) as usize);
            read(&mut ahead, &next);
            bytes.extend(next);
        }
        bytes
    }

    /// As many bytes as are left of the record's content and padding.
    pub(super) fn rest_of_record(&mut self) -> Vec<u8> {
        let server = &self.bench.server;
        let left = server.content.min(65_535) + server.padding.min(255);
        self.random.bytes(left as usize)
    }

    pub(super) fn end_record(&mut self, id: u16) -> Vec<u8> {
        end_record(&mut self.random, id)
    }

    /// A record that closes, and the calls behind it.
    fn closing(&mut self) {
        let bytes = self.rest_of_record();
        if !self.send(&bytes) {
            return;
        }
        let bytes = damaged_reply(&mut self.random, &self.bench.server);
        self.send(&bytes);
        if self.random.one_in(2) {
            self.line("values");
            self.line("opened");
        }
        if self.random.one_in(6) {
            self.every_call();
        }
        if !self.open() && self.random.one_in(3) {
            // What a close left shows once the connection is open again.
            self.line("poke open 1");
            self.line("opened");
            let bytes = management(&mut self.random);
            self.send(&bytes);
            for _ in 0..self.random.within(1, 5) {
                self.any_call();
            }
        }
    }
}

/// Bytes read by a state, to its close or to the end.
fn read(server: &mut Server, mut bytes: &[u8]) {
    while let Ok(step) = server.step(bytes) {
        if step.used == 0 {
            break;
        }
        bytes = &bytes[step.used..];
    }
}

fn any_open(random: &mut Random, server: &Server) -> Option<usize> {
    let taken: Vec<usize> = (0..SLOTS).filter(|&slot| server.taken(slot)).collect();
    (!taken.is_empty()).then(|| random.pick(&taken))
}

/// A record that the state takes.
fn next_reply(random: &mut Random, server: &Server) -> Vec<u8> {
    let Some(slot) = any_open(random, server) else {
        return management(random);
    };
    let request = server.slots[slot];
    match random.below(20) {
        0..=6 if !request.out_ended => output(random, kind::STDOUT, request.id),
        0..=10 if !request.err_ended => output(random, kind::STDERR, request.id),
        11 | 12 if !request.out_ended => record(random, kind::STDOUT, request.id, &[]),
        11 | 12 if !request.err_ended => record(random, kind::STDERR, request.id, &[]),
        13 if !request.err_ended => record(random, kind::STDERR, request.id, &[]),
        14..=16 => end_record(random, request.id),
        _ => management(random),
    }
}

fn output(random: &mut Random, kind: u8, id: u16) -> Vec<u8> {
    let n = match random.below(120) {
        0 => random.pick(&[8_184, 65_535]),
        1..=20 => random.pick(&[1, 8]),
        _ => random.within(1, 30),
    };
    let content = random.bytes(n);
    record(random, kind, id, &content)
}

fn end_record(random: &mut Random, id: u16) -> Vec<u8> {
    let status = random.draw() as u32 >> random.below(32);
    let protocol = match random.below(8) {
        0..=3 => 0,
        4..=6 => random.pick(&[1, 2, 3]),
        _ => random.byte(),
    };
    let mut body = end_body(status, protocol);
    for byte in &mut body[5..] {
        *byte = random.byte();
    }
    record(random, kind::END, id, &body)
}

fn management(random: &mut Random) -> Vec<u8> {
    if random.one_in(3) {
        let body = random.bytes(8);
        record(random, kind::UNKNOWN_TYPE, 0, &body)
    } else {
        let list = result(random);
        record(random, kind::GET_VALUES_RESULT, 0, &list)
    }
}

/// A well-formed result of up to 512 bytes.
fn result(random: &mut Random) -> Vec<u8> {
    const NAMES: [&str; 4] = ["FCGI_MAX_CONNS", "FCGI_MAX_REQS", "FCGI_MPXS_CONNS", ""];
    match random.below(10) {
        0 => return Vec::new(),
        1 => {
            let n = random.pick(&[511, 512]);
            return filled_list(random, n);
        }
        _ => {}
    }
    let mut list = Vec::new();
    for _ in 0..random.within(1, 3) {
        let (name, value) = (random.pick(&NAMES), any_value(random));
        if random.one_in(4) {
            append_long_pair(random, &mut list, name.as_bytes(), &value);
        } else {
            append_pair(&mut list, name.as_bytes(), &value);
        }
    }
    // It has room for two of the longest values.
    if list.len() > 512 {
        list.clear();
    }
    list
}

/// A record that mostly closes: broken in one way.
fn damaged_reply(random: &mut Random, server: &Server) -> Vec<u8> {
    let slot = any_open(random, server);
    let id = slot.map_or(1, |slot| server.slots[slot].id);
    match random.below(14) {
        0 => {
            let mut bytes = next_reply(random, server);
            bytes[0] = random.pick(&[0, 2, 128, 255]);
            bytes
        }
        1 => {
            let mut bytes = next_reply(random, server);
            bytes[1] = random.pick(&[0, 1, 2, 4, 5, 8, 9, 12, 255]);
            bytes
        }
        // An id that is not open: one bit away, or 0.
        2 | 3 => {
            let mut bytes = next_reply(random, server);
            let at = random.within(2, 3);
            bytes[at] ^= 1 << random.below(8);
            bytes
        }
        4 => {
            let kind = random.pick(&[kind::STDOUT, kind::STDERR, kind::END]);
            record(random, kind, 0, &[0; 8])
        }
        5 | 6 => {
            let n = random.pick(&[0, 1, 7, 9, 16]);
            let (kind, id) = random.pick(&[(kind::END, id), (kind::UNKNOWN_TYPE, 0)]);
            let body = random.bytes(n);
            record(random, kind, id, &body)
        }
        7 => {
            let n = random.pick(&[513, 513, 600]);
            let list = filled_list(random, n);
            record(random, kind::GET_VALUES_RESULT, 0, &list)
        }
        8 | 9 => {
            let mut list = damaged_list(random);
            list.truncate(512);
            record(random, kind::GET_VALUES_RESULT, 0, &list)
        }
        // The id is free: another record for it.
        10 | 11 => {
            let mut bytes = end_record(random, id);
            let kind = random.pick(&[kind::STDOUT, kind::STDERR, kind::END]);
            bytes.extend(record(random, kind, id, &[0; 8]));
            bytes
        }
        // A stream is ended twice, or goes on behind its end.
        _ => {
            let kind = random.pick(&[kind::STDOUT, kind::STDERR]);
            let mut bytes = record(random, kind, id, &[]);
            let n = random.pick(&[0, 0, 1, 8]);
            let content = random.bytes(n);
            bytes.extend(record(random, kind, id, &content));
            bytes
        }
    }
}
