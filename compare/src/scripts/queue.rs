//! What is said comes to wait and is pumped out: queued calls of all kinds among straight ones, turns of the pump, and
//! every way in which what waits can come to nothing.

use super::records::{begin_body, record};
use super::Draft;
use crate::console::words::hex;
use crate::queue::ROOM;
use crate::state::SLOTS;
use crate::wire::kind;

/// The room that a record of the pump is given.
const RECORD: usize = 520;

impl Draft {
    /// A stretch of a connection on which much waits.
    pub(super) fn queued(&mut self) {
        self.choose_cut();
        if !self.open() || self.random.one_in(3) {
            self.start();
        }
        self.open_some();
        for _ in 0..self.random.within(10, 50) {
            match self.random.below(60) {
                0..=29 => self.queue_traffic(),
                30..=35 => self.alternating(),
                36..=40 => {
                    let id = self.some_id();
                    let record = self.next_record(id);
                    self.feed(&record);
                }
                41..=43 => self.finish_inside(),
                44..=46 => self.fill_up(),
                47..=49 => self.leave(),
                50..=52 => self.open_some(),
                53 => self.wrong_queue(),
                54 => self.close_somehow(),
                55 if self.random.one_in(6) => self.alternating_to_the_brim(),
                56..=57 => self.drain(),
                _ => self.any_call(),
            }
            if !self.open() {
                self.look_at_waits();
                self.any_call();
                self.start();
                self.open_some();
            }
        }
        if self.random.one_in(2) {
            self.drain();
        }
    }

    /// One of the calls that are about what waits.
    pub(super) fn queue_call(&mut self, id: u16) {
        match self.random.below(24) {
            0..=7 => self.queue_say(id),
            8 | 9 => self.queue_end(id),
            10 => self.queue_finish(id),
            11..=18 => self.pump(),
            19..=21 => {
                self.line(format!("waits {id}"));
            }
            _ => {
                self.line("numbers");
            }
        }
    }

    /// The same, mostly of one request at a time, with straight calls in between.
    pub(super) fn queue_traffic(&mut self) {
        let id = self.some_id();
        for _ in 0..self.random.within(1, 5) {
            match self.random.below(12) {
                0..=6 => self.queue_say(id),
                7 => self.queue_end(id),
                8 => self.say(id),
                9 if self.random.one_in(3) => self.end(id),
                10 if self.random.one_in(4) => self.finish(id),
                _ => {
                    let other = self.some_id();
                    self.queue_say(other);
                }
            }
        }
        match self.random.below(6) {
            0 | 1 => self.pump(),
            2 | 3 => {
                self.line(format!("waits {id}"));
            }
            4 => self.look_at_waits(),
            _ => {}
        }
    }

    pub(super) fn look_at_waits(&mut self) {
        self.line("numbers");
        for id in self.active_ids() {
            if self.random.one_in(3) {
                self.line(format!("waits {id}"));
            }
        }
    }

    /// Of some tries, the first request that may still say something.
    pub(super) fn writing_id(&mut self) -> u16 {
        let mut id = self.some_id();
        for _ in 0..4 {
            let console = &self.console;
            let slot = console.connection.find(id);
            let may = slot.is_some_and(|slot| {
                let request = &console.connection.slots[slot];
                let ready = request.params_ended() || request.spent();
                let ended = request.out_ended || request.err_ended;
                ready && !ended && !console.waits.leaving(slot)
            });
            if may {
                break;
            }
            id = self.some_id();
        }
        id
    }

    fn waiting(&self, id: u16) -> usize {
        let slot = self.console.connection.find(id);
        slot.map_or(0, |slot| self.console.waits.count(slot))
    }

    /// Data that just fits, that does not, or any.
    pub(super) fn queue_say(&mut self, id: u16) {
        let room = ROOM.saturating_sub(self.waiting(id));
        let n = match self.random.below(60) {
            0 => room,
            1 => room + 1,
            2 => self.random.pick(&[511, 512, 513]),
            3 => self.random.pick(&[1_023, 1_024, 1_025, 2_000, 9_000]),
            4 | 5 => self.random.within(1, 700),
            6..=18 => self.random.pick(&[0, 0, 1, 7, 8, 9]),
            _ => self.random.within(1, 30),
        };
        let data = hex(&self.random.bytes(n));
        let stream = self.stream();
        self.line(format!("queue say {id} {stream} {data}"));
    }

    pub(super) fn queue_end(&mut self, id: u16) {
        let stream = self.stream();
        self.line(format!("queue end {id} {stream}"));
    }

    pub(super) fn queue_finish(&mut self, id: u16) {
        let status = self.random.draw() as u32 >> self.random.below(32);
        self.line(format!("queue finish {id} {status}"));
    }

    /// A turn with any allowance, and a buffer at the edge of what that takes.
    pub(super) fn pump(&mut self) {
        let allowance = match self.random.below(40) {
            0 => 0,
            1 => self.random.pick(&[17, 32, 40, 134, 135]),
            // Numbers whose product with 520 passes 64 bits, or just does not.
            2 => self.random.pick(&[
                u64::MAX,
                1 << 63,
                1 << 61,
                u64::MAX / 520,
                u64::MAX / 520 + 1,
            ]),
            3..=18 => 1,
            19..=26 => 2,
            _ => self.random.within(1, 16) as u64,
        };
        let needed = (allowance.min(200) as usize * RECORD).min(70_000);
        let room = match self.random.below(16) {
            0 => needed.saturating_sub(1),
            1 => needed + 1,
            2 => 0,
            3 => needed + self.random.index(600),
            _ => needed,
        };
        self.line(format!("pump {allowance} {}", room.min(70_000)));
    }

    /// Turns until nothing waits, or nearly.
    pub(super) fn drain(&mut self) {
        for _ in 0..40 {
            let allowance = self.random.pick(&[1, 3, 16, 16, 40]);
            self.line(format!("pump {allowance} {}", allowance * RECORD));
            if !self.last().starts_with(&format!("pumped {allowance} ")) {
                break;
            }
        }
        self.line("numbers");
    }

    /// Requests that may write: most keep the connection.
    pub(super) fn open_some(&mut self) {
        let most = self.random.pick(&[1, 3, 5, SLOTS]);
        for _ in 0..self.random.within(1, most) {
            let id = self.any_id();
            if self.console.connection.find(id).is_some() {
                continue;
            }
            let mut body = begin_body(&mut self.random);
            body[..2].copy_from_slice(&[0, 1]);
            let mut bytes = record(&mut self.random, kind::BEGIN, id, &body);
            if !self.random.one_in(6) {
                let list = self.small_list();
                if self.random.one_in(2) {
                    bytes.extend(record(&mut self.random, kind::PARAMS, id, &list));
                }
                bytes.extend(record(&mut self.random, kind::PARAMS, id, &[]));
            }
            self.feed_line(&bytes);
        }
    }

    /// The two streams in turns, a byte or a few at a time, and ends among them.
    fn alternating(&mut self) {
        let id = self.writing_id();
        let most = self.random.pick(&[1, 1, 3]);
        for i in 0..self.random.within(4, 24) {
            let stream = ["stdout", "stderr"][i % 2];
            let n = self.random.within(1, most);
            let data = hex(&self.random.bytes(n));
            self.line(format!("queue say {id} {stream} {data}"));
            if self.random.one_in(16) {
                self.queue_end(id);
            }
        }
        self.line(format!("waits {id}"));
        if self.random.one_in(2) {
            let n = self.random.within(1, 20);
            self.line(format!("pump {n} {}", n * RECORD));
        }
    }

    /// A byte of each stream in turn until nothing fits any more, and then as many records.
    fn alternating_to_the_brim(&mut self) {
        let id = self.writing_id();
        for i in self.waiting(id)..=ROOM {
            let stream = ["stdout", "stderr"][i % 2];
            let byte = self.random.byte();
            self.line(format!("queue say {id} {stream} {byte:02x}"));
            if self.last() != "waits" {
                break;
            }
        }
        self.line(format!("waits {id}"));
        let turns = if self.random.one_in(2) { 9 } else { 1 };
        for _ in 0..turns {
            self.line("pump 130 70000");
        }
    }

    /// Data to the last byte of the room, in one or two parts, and one byte more.
    fn fill_up(&mut self) {
        let id = self.writing_id();
        let room = ROOM.saturating_sub(self.waiting(id));
        let n = self.random.within(0, room);
        let n = self.random.pick(&[n, n, room]);
        let stream = self.stream();
        for n in [n, room - n] {
            let data = hex(&self.random.bytes(n));
            self.line(format!("queue say {id} {stream} {data}"));
            // An end behind the first part takes no room of the second.
            if self.random.one_in(3) {
                self.queue_end(id);
            }
        }
        self.line(format!("queue say {id} {stream} 2d"));
        self.line(format!("queue say {id} {stream} -"));
        if self.random.one_in(2) {
            self.pump();
            self.line(format!("waits {id}"));
        }
    }
}
