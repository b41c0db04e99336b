//! What waits put together by pokes, in shape or not.
//!
//! What lies behind the bytes that wait is left open by the rules. So where more bytes are made to wait by pokes, the
//! bytes and their marks are poked too; only a room that is full is made to have more.

use super::Draft;
use crate::console::words::hex;
use crate::queue::{NUMBERS, QUEUE, ROOM};
use crate::state::SLOTS;

/// Of the numbers, the words that have a bit for each slot.
const DATA: usize = 48;
const FRONT: [usize; 3] = [49, 50, 51];
const END: usize = 52;
const FIRST: usize = 53;

impl Draft {
    pub(super) fn poke_number(&mut self, n: usize, value: u16) {
        self.line(format!("poke number {n} {value}"));
    }

    fn poke_bit(&mut self, word: usize, slot: usize, on: bool) {
        let word_was = self.console.waits.numbers[word];
        let value = word_was & !(1 << slot) | u16::from(on) << slot;
        self.poke_number(word, value);
    }

    /// Something about what waits, mostly of a taken slot.
    pub(super) fn poke_waits(&mut self) {
        let id = self.writing_id();
        let slot = self.random.index(SLOTS);
        let slot = self.console.connection.find(id).unwrap_or(slot);
        let count = self.console.waits.count(slot);
        match self.random.below(16) {
            0..=2 => {
                let word = self.random.pick(&FRONT);
                let on = !self.random.one_in(3);
                self.poke_bit(word, slot, on);
            }
            3 => {
                let word = self.random.pick(&FRONT);
                let occupied = self.console.connection.occupied;
                let value = self.random.draw() as u16 & occupied;
                self.poke_number(word, value);
            }
            4 => self.poke_end(slot),
            5 => self.poke_first(),
            6 | 7 if count > 0 => self.poke_marks(id, slot, count),
            8 if count > 0 => {
                let place = slot * ROOM + self.random.index(count.min(ROOM));
                let byte = self.random.byte();
                self.line(format!("poke queue {place} {byte}"));
            }
            9 if count > 0 => {
                let fewer = self.random.index(count.min(ROOM)) as u16;
                self.poke_number(slot, fewer);
            }
            10 if count > 0 => self.poke_bit(DATA, slot, false),
            11 if count == 0 => {
                // Without data the number says nothing.
                let any = self.random.pick(&[1, 1_023, 1_024, 65_535]);
                self.poke_number(slot, any);
                self.line(format!("queue say {id} stdout -"));
                self.line("numbers");
            }
            12 => self.poke_behind(slot, count),
            13 => {
                self.poke_too_much(id, slot);
            }
            _ => {
                self.poke_data(slot);
                self.end_marks(id);
            }
        }
        self.meet_waits(id);
    }

    /// A call that writes the numbers and the marks of a request anew, and then both.
    fn meet_waits(&mut self, id: u16) {
        match self.random.below(8) {
            0 => {
                self.line(format!("queue say {id} stdout -"));
            }
            1 => self.queue_end(id),
            2 if self.random.one_in(3) => self.queue_finish(id),
            3 => self.queue_say(id),
            4 => {
                self.line("pump 1 520");
            }
            5 => {}
            _ => return,
        }
        self.line(format!("waits {id}"));
        self.line("numbers");
    }

    /// Any first slot, also one that is none, where several slots wait.
    fn poke_first(&mut self) {
        for _ in 0..self.random.below(4) {
            let id = self.writing_id();
            self.line(format!("queue say {id} stdout 2d"));
        }
        let first = match self.random.below(3) {
            0 => self.random.index(SLOTS),
            1 => self.random.within(SLOTS, 40),
            _ => self.random.pick(&[15, 16, 255, 65_535]),
        };
        self.poke_number(FIRST, first as u16);
        self.line("pump 1 520");
    }

    /// END comes to wait or does not any more; its status may be anything at any time.
    fn poke_end(&mut self, slot: usize) {
        let on = self.random.one_in(2);
        self.poke_bit(END, slot, on);
        if self.random.one_in(2) {
            let (half, value) = (self.random.pick(&[16, 32]), self.random.draw() as u16);
            self.poke_number(half + slot, value);
        }
        // No traffic leads to one that is leaving and live.
        if self.random.one_in(4) {
            let id = self.console.connection.slots[slot].id;
            self.line(format!("poke spent {slot} live"));
            self.line(format!("poke turn {slot} params"));
            self.queue_say(id);
            self.say(id);
            self.queue_end(id);
        }
    }

    /// Marks of bytes that wait: either stream, any ends, and numbers that stand for none.
    fn poke_marks(&mut self, id: u16, slot: usize, count: usize) {
        let count = count.min(ROOM);
        for _ in 0..self.random.within(1, 4) {
            let i = match self.random.below(3) {
                0 => count - 1,
                1 => self.random.index(count.min(8)),
                _ => self.random.index(count),
            };
            let mark = self.any_mark();
            self.line(format!("poke mark {} {mark}", slot * ROOM + i));
        }
        self.end_marks(id);
    }

    /// An end goes behind the last of the marks.
    fn end_marks(&mut self, id: u16) {
        if self.random.one_in(2) {
            self.queue_end(id);
            self.line(format!("waits {id}"));
        }
    }

    fn any_mark(&mut self) -> u8 {
        match self.random.below(4) {
            0 => self
                .random
                .pick(&[10, 11, 12, 18, 21, 22, 25, 130, 254, 255]),
            1 => self.random.byte(),
            _ => self.random.index(10) as u8,
        }
    }

    /// Bytes and marks behind those that wait, which nothing depends on.
    fn poke_behind(&mut self, slot: usize, count: usize) {
        if count < ROOM {
            let place = slot * ROOM + self.random.within(count, ROOM - 1);
            let what = self.random.pick(&["queue", "mark"]);
            let byte = self.random.byte();
            self.line(format!("poke {what} {place} {byte}"));
        }
    }

    /// A few bytes come to wait where none or fewer did, with any marks.
    pub(super) fn poke_data(&mut self, slot: usize) {
        let n = self.random.within(1, 6);
        for i in 0..n {
            let place = slot * ROOM + i;
            let (byte, mark) = (self.random.byte(), self.any_mark());
            self.line(format!("poke queue {place} {byte}"));
            self.line(format!("poke mark {place} {mark}"));
        }
        self.poke_number(slot, n as u16 - 1);
        self.poke_bit(DATA, slot, true);
    }

    /// A room that is full, and then more in it than it has room for. Answers whether it could be filled.
    pub(super) fn poke_too_much(&mut self, id: u16, slot: usize) -> bool {
        let many = self.random.pick(&[1_024, 1_024, 1_025, 32_767, 65_535]);
        if !self.fill_room(id, slot) {
            return false;
        }
        self.poke_number(slot, many);
        true
    }

    /// Lets as much wait as there is room for.
    pub(super) fn fill_room(&mut self, id: u16, slot: usize) -> bool {
        let count = self.console.waits.count(slot);
        if count < ROOM {
            let data = hex(&self.random.bytes(ROOM - count));
            let stream = self.stream();
            self.line(format!("queue say {id} {stream} {data}"));
        }
        self.console.connection.find(id) == Some(slot) && self.console.waits.count(slot) >= ROOM
    }

    /// Something waits in a free slot.
    pub(super) fn poke_free(&mut self, slot: usize) {
        match self.random.below(4) {
            0 => self.poke_data(slot),
            1 => self.poke_bit(END, slot, true),
            _ => {
                let word = self.random.pick(&FRONT[..2]);
                self.poke_bit(word, slot, true);
            }
        }
    }

    /// Pokes what is out of shape back into it: nothing waits in free slots, and no more than there is room for.
    pub(super) fn mend_waits(&mut self) {
        let occupied = self.console.connection.occupied;
        for word in [DATA, FRONT[0], FRONT[1], END] {
            let was = self.console.waits.numbers[word];
            if was & !occupied != 0 {
                self.poke_number(word, was & occupied);
            }
        }
        for slot in 0..SLOTS {
            if self.console.waits.count(slot) > ROOM {
                self.poke_number(slot, ROOM as u16 - 1);
            }
        }
    }

    /// Numbers that the sizes of what waits limit: the greatest, its neighbours, and with zeros before them.
    pub(super) fn queue_limit(&mut self) {
        let commands = [
            ("lend queue", QUEUE + 1, ""),
            ("poke queue", QUEUE - 1, " 0"),
            ("poke mark", QUEUE - 1, " 0"),
            ("poke number", NUMBERS - 1, " 0"),
        ];
        let (command, greatest, after) = self.random.pick(&commands);
        let n = greatest - 1 + self.random.index(3);
        let digits = self.random.pick(&[1, 1, 20, 21]);
        self.line(format!("{command} {n:0digits$}{after}"));
    }
}
