//! Each condition of row 9 broken alone, and its neighbour on the edge that passes.

use super::records::begin_body;
use super::Draft;
use crate::queue::QUEUE;
use crate::state::{AREA, SLOTS, STORE};

impl Draft {
    pub(super) fn row_nine(&mut self) {
        self.choose_cut();
        self.poked_table();
        let was = self.console.connection.clone();
        for _ in 0..self.random.within(4, 16) {
            let condition = self.random.below(17);
            let broken = self.random.one_in(2);
            self.script.states += 1;
            if !self.break_condition(condition, broken) {
                continue;
            }
            if self.random.one_in(6) {
                // 9 comes before 1, and 2 before 9.
                self.line("poke open 0");
            }
            if self.random.one_in(8) {
                let n = self.random.pick(&[STORE - 1, STORE + 1]);
                self.line(format!("lend {n}"));
                self.every_call();
                self.line(format!("lend {STORE}"));
            }
            if self.random.one_in(4) {
                let n = self.random.pick(&[QUEUE - 1, QUEUE + 1]);
                self.line(format!("lend queue {n}"));
                self.every_queue_call();
                self.line(format!("lend queue {QUEUE}"));
            }
            self.every_call();
            let n = self.random.within(1, 20);
            let bytes = self.random.bytes(n);
            self.feed(&bytes);
            self.restore(&was);
        }
    }

    fn taken_slot(&mut self) -> usize {
        let id = self.taken_id();
        self.console.connection.find(id).unwrap_or(0)
    }

    fn taken_id(&mut self) -> u16 {
        let active = self.active_ids();
        if active.is_empty() {
            0
        } else {
            self.random.pick(&active)
        }
    }

    fn free_slot(&mut self) -> Option<usize> {
        let connection = &self.console.connection;
        let free: Vec<_> = (0..SLOTS).filter(|&s| !connection.taken(s)).collect();
        (!free.is_empty()).then(|| self.random.pick(&free))
    }

    fn free_id(&mut self) -> u16 {
        let mut id = self.any_id();
        while self.console.connection.find(id).is_some() {
            id = self.any_id();
        }
        id
    }

    /// Breaks one condition, or goes to its edge; answers whether the state has what that takes.
    fn break_condition(&mut self, condition: u64, broken: bool) -> bool {
        let past = usize::from(broken);
        match condition {
            // A length over that of the area, in a free slot too.
            0 => {
                let slot = self.random.index(SLOTS);
                let length = match (broken, self.random.one_in(4)) {
                    (true, true) => 65_535,
                    _ => AREA + past,
                };
                self.line(format!("poke length {slot} {length}"));
            }
            // An id twice: in two taken slots, or in a free one.
            1 => {
                let id = self.taken_id();
                let slot = if broken {
                    let other = self.taken_slot();
                    if self.console.connection.slots[other].id == id {
                        return false;
                    }
                    Some(other)
                } else {
                    self.free_slot()
                };
                let Some(slot) = slot else { return false };
                self.line(format!("poke id {slot} {id}"));
            }
            // Id 0 in a taken slot, or in a free one.
            2 => {
                let slot = if broken {
                    Some(self.taken_slot())
                } else {
                    self.free_slot()
                };
                let Some(slot) = slot else { return false };
                self.line(format!("poke id {slot} 0"));
            }
            3 => {
                let most = if self.random.one_in(4) { u64::MAX } else { 8 };
                let held = if broken { most } else { 7 };
                self.line("poke header 0105000100000000");
                self.line(format!("poke held {held}"));
                if self.random.one_in(2) {
                    self.line("poke padding 3");
                }
            }
            4 => {
                let most = self.random.pick(&[65_536, 65_536, 1 << 32, u64::MAX]);
                let left = if broken { most } else { 65_535 };
                self.line(format!("poke content {left}"));
            }
            5 => {
                let most = self.random.pick(&[256, 256, 1 << 32, u64::MAX]);
                let left = if broken { most } else { 255 };
                self.line(format!("poke padding {left}"));
            }
            6..=8 => self.break_body(condition, broken),
            // A slot that is none; the last one that is.
            9 => {
                let kind = self.random.pick(&["params", "stdin", "data"]);
                let slot = if broken {
                    self.random.pick(&[16, 17, 31, 32, 255])
                } else {
                    self.taken_slot()
                };
                if slot < SLOTS {
                    self.line(format!("poke length {slot} 5"));
                }
                self.line(format!("poke target {kind} {slot}"));
                self.line("poke content 4");
            }
            10 => {
                let kind = self.random.pick(&["params", "stdin", "data"]);
                let slot = if broken {
                    self.free_slot()
                } else {
                    Some(self.taken_slot())
                };
                let Some(slot) = slot else { return false };
                let left = self.random.pick(&[0, 1, 9]);
                self.line(format!("poke length {slot} 2"));
                self.line(format!("poke target {kind} {slot}"));
                self.line(format!("poke content {left}"));
            }
            13..=16 => return self.break_waits(condition, broken),
            _ => {
                let slot = self.taken_slot();
                let left = self.random.pick(&[0, 1, 2, 40, AREA - 1, AREA]);
                let length = AREA - left + past;
                // A length over the area would be another condition.
                if length > AREA {
                    return false;
                }
                self.line(format!("poke length {slot} {length}"));
                self.line(format!("poke target params {slot}"));
                self.line(format!("poke content {left}"));
            }
        }
        true
    }

    /// More data waits than there is room for, or anything waits in a free slot; or the room is full, or it waits in a
    /// taken one.
    fn break_waits(&mut self, condition: u64, broken: bool) -> bool {
        if condition < 15 {
            let id = self.taken_id();
            let slot = self.console.connection.find(id).unwrap_or(0);
            return if broken {
                self.poke_too_much(id, slot)
            } else {
                self.fill_room(id, slot)
            };
        }
        let slot = if broken {
            self.free_slot()
        } else {
            Some(self.taken_slot())
        };
        if let Some(slot) = slot {
            self.poke_free(slot);
        }
        slot.is_some()
    }

    /// Bodies: held and missing bytes that are not 8, or pass 512, also when their sum passes 64 bits; a BEGIN body
    /// for id 0 or an active id.
    fn break_body(&mut self, condition: u64, broken: bool) {
        let body = begin_body(&mut self.random);
        match condition {
            6 => {
                let id = self.free_id();
                let gathered = self.random.below(9);
                let missing = 8 - gathered;
                let (gathered, missing) = match (broken, self.random.below(4)) {
                    (false, _) => (gathered, missing),
                    (true, 0) => (u64::MAX, 9),
                    (true, 1) => (u64::MAX - 2, 11),
                    (true, 2) => (gathered, missing.wrapping_sub(1).min(65_535)),
                    (true, _) => (gathered, missing + 1),
                };
                self.poke_body(&format!("begin {id}"), gathered, missing, &body);
            }
            7 => {
                let missing = self.random.pick(&[0, 1, 2, 40, 512]);
                let gathered = match (broken, self.random.below(4)) {
                    (false, _) => 512 - missing,
                    (true, 0) => u64::MAX - missing / 2,
                    (true, _) => 513 - missing,
                };
                self.poke_body("query", gathered, missing, &[0; 512]);
            }
            _ => {
                let id = match (broken, self.random.one_in(3)) {
                    (false, _) => self.free_id(),
                    (true, true) => 0,
                    (true, false) => self.taken_id(),
                };
                let gathered = self.random.below(9);
                self.poke_body(&format!("begin {id}"), gathered, 8 - gathered, &body);
            }
        }
    }
}
