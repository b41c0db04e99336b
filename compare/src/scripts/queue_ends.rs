//! Requests that leave, and what waits coming to nothing: queues of the wrong size, and closes of every kind.

use super::records::{begin_body, record};
use super::Draft;
use crate::queue::{QUEUE, ROOM};
use crate::state::STORE;
use crate::wire::{kind, HEADER};

impl Draft {
    /// A queued finish, what a leaving request is then refused or sent, and turns of the pump among it.
    pub(super) fn leave(&mut self) {
        let id = self.some_id();
        if self.random.one_in(2) {
            self.queue_say(id);
        }
        self.queue_finish(id);
        for _ in 0..self.random.within(1, 6) {
            match self.random.below(12) {
                0 => self.queue_say(id),
                1 => self.queue_end(id),
                2 => self.queue_finish(id),
                3 => self.say(id),
                4 => self.end(id),
                5 => self.finish(id),
                6 => self.value(id),
                7 => {
                    self.line(format!("walk {id}"));
                    self.line(format!("counts {id}"));
                }
                8 => {
                    let begin = begin_body(&mut self.random);
                    let bytes = record(&mut self.random, kind::BEGIN, id, &begin);
                    self.feed(&bytes);
                }
                9 => {
                    let bytes = self.any_record(id);
                    self.feed(&bytes);
                }
                10 => {
                    self.line(format!("waits {id}"));
                }
                _ => self.pump(),
            }
        }
    }

    /// A request that is finished while one of its records is half read.
    pub(super) fn finish_inside(&mut self) {
        let id = self.some_id();
        let kind = self
            .random
            .pick(&[kind::PARAMS, kind::STDIN, kind::STDIN, kind::DATA]);
        let n = self.random.within(1, 12);
        let content = self.random.bytes(n);
        let bytes = record(&mut self.random, kind, id, &content);
        let at = match self.random.below(3) {
            0 => self.random.within(1, HEADER),
            _ => self.random.within(HEADER, bytes.len() - 1),
        };
        if !self.feed(&bytes[..at]) {
            return;
        }
        self.queue_finish(id);
        if self.random.one_in(2) {
            self.pump();
        }
        self.feed(&bytes[at..]);
        self.line(format!("area {id}"));
        self.line(format!("counts {id}"));
    }

    /// A queue that is too short or too long.
    pub(super) fn wrong_queue(&mut self) {
        let n = self
            .random
            .pick(&[0, 1, ROOM, QUEUE - 1, QUEUE - 1, QUEUE + 1, QUEUE + 1]);
        self.line(format!("lend queue {n}"));
        let store = self.random.pick(&[STORE, STORE, STORE + 1]);
        self.line(format!("lend {store}"));
        for _ in 0..self.random.within(2, 8) {
            let id = self.some_id();
            match self.random.below(6) {
                0 => self.pump(),
                1 => self.queue_say(id),
                2 => self.queue_end(id),
                3 => {
                    self.line(format!("waits {id}"));
                }
                4 => self.say(id),
                _ => self.queue_call(id),
            }
        }
        // It is refused, and what waits stays.
        if store > STORE && self.random.one_in(2) {
            self.line("start");
            self.line("numbers");
        }
        self.line(format!("lend {STORE}"));
        self.line(format!("lend queue {QUEUE}"));
    }

    /// A close while things wait: by the pump, by a straight finish, or by a record.
    pub(super) fn close_somehow(&mut self) {
        self.queue_traffic();
        let active = self.active_ids();
        if active.is_empty() {
            return;
        }
        let id = self.random.pick(&active);
        let slot = self.console.connection.find(id).unwrap_or(0);
        match self.random.below(4) {
            0 => {
                self.line(format!("poke keep {slot} 0"));
                self.line(format!("queue finish {id} 7"));
                self.drain();
            }
            1 => {
                self.line(format!("poke keep {slot} 0"));
                self.line(format!("finish {id} 7 64"));
            }
            2 => {
                let version = self.random.pick(&[0, 2, 255]);
                self.piece_line(&[version, 5, 0, 1, 0, 0, 0, 0]);
            }
            _ => {
                let bytes = self.malformed_query();
                self.feed(&bytes);
            }
        }
        self.line("numbers");
        self.pump();
    }
}
