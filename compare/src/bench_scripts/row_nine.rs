//! Each condition of row 9 broken alone, and its neighbour on the edge that passes.

use super::Draft;
use crate::state::{AREA, SLOTS};

impl Draft {
    pub(super) fn row_nine(&mut self) {
        self.choose_cut();
        self.poked_table();
        let was = self.bench.server.clone();
        for _ in 0..self.random.within(3, 12) {
            let condition = self.random.below(11);
            let broken = self.random.one_in(2);
            self.script.states += 1;
            if !self.break_condition(condition, broken) {
                continue;
            }
            if self.random.one_in(6) {
                // 9 comes before 1.
                self.line("poke open 0");
            }
            self.every_call();
            let n = self.random.within(1, 20);
            let bytes = self.random.bytes(n);
            self.send(&bytes);
            self.restore(&was);
        }
    }

    fn taken_slot(&mut self) -> usize {
        let id = self.open_id();
        self.bench.server.find(id).unwrap_or(0)
    }

    pub(super) fn free_slot(&mut self) -> Option<usize> {
        let server = &self.bench.server;
        let free: Vec<_> = (0..SLOTS).filter(|&slot| !server.taken(slot)).collect();
        (!free.is_empty()).then(|| self.random.pick(&free))
    }

    /// Breaks one condition, or goes to its edge; answers whether the state has what that takes.
    fn break_condition(&mut self, condition: u64, broken: bool) -> bool {
        match condition {
            // A length over that of the area, in a free slot too.
            0 => {
                let slot = self.random.index(SLOTS);
                let over = self.random.pick(&[AREA + 1, AREA + 1, 65_535]);
                let length = if broken { over } else { AREA };
                self.line(format!("poke length {slot} {length}"));
            }
            1 => return self.break_ids(broken),
            // Id 0 in a taken slot, or in a free one.
            2 => {
                let slot = if broken {
                    Some(self.taken_slot())
                } else {
                    self.free_slot()
                };
                let Some(slot) = slot else { return false };
                self.line(format!("poke id {slot} 0"));
            }
            3 => {
                let over = self.random.pick(&[8, 8, 9, 256, u64::MAX]);
                let held = if broken { over } else { 7 };
                self.poke_held(held, "0106000100000000");
                if self.random.one_in(2) {
                    self.line("poke padding 3");
                }
            }
            4 => {
                let over = self.random.pick(&[65_536, 65_536, 1 << 32, u64::MAX]);
                let left = if broken { over } else { 65_535 };
                if self.random.one_in(2) {
                    let slot = self.taken_slot();
                    self.line(format!("poke target stdout {slot}"));
                }
                self.line(format!("poke content {left}"));
            }
            5 => {
                let over = self.random.pick(&[256, 256, 1 << 32, u64::MAX]);
                let left = if broken { over } else { 255 };
                self.line(format!("poke padding {left}"));
            }
            6 | 7 => return self.break_slot(broken),
            8 | 9 => self.break_body(broken),
            _ => self.break_result(broken),
        }
        true
    }

    /// An id twice: in two taken slots, or in a free one.
    fn break_ids(&mut self, broken: bool) -> bool {
        let id = self.open_id();
        let slot = if broken {
            let other = self.taken_slot();
            if self.bench.server.slots[other].id == id {
                return false;
            }
            Some(other)
        } else {
            self.free_slot()
        };
        let Some(slot) = slot else { return false };
        self.line(format!("poke id {slot} {id}"));
        true
    }

    /// Content due to a slot that is none or free, whether any is left or not.
    fn break_slot(&mut self, broken: bool) -> bool {
        let slot = match (broken, self.random.one_in(2)) {
            (false, _) => self.taken_slot(),
            (true, true) => self.random.pick(&[16, 16, 17, 31, 32, 255]),
            (true, false) => match self.free_slot() {
                Some(slot) => slot,
                None => return false,
            },
        };
        match self.random.below(3) {
            0 => {
                let gathered = self.random.below(9);
                let body = self.random.bytes(8);
                self.poke_body(&format!("end {slot}"), gathered, 8 - gathered, &body);
            }
            _ => {
                let kind = self.random.pick(&["stdout", "stderr"]);
                let left = self.random.pick(&[0, 1, 9]);
                self.line(format!("poke target {kind} {slot}"));
                self.line(format!("poke content {left}"));
            }
        }
        true
    }

    /// Bytes gathered and left that are not 8 together, also when their sum passes 64 bits.
    fn break_body(&mut self, broken: bool) {
        let gathered = self.random.below(9);
        let missing = 8 - gathered;
        let (gathered, missing) = match (broken, self.random.below(4)) {
            (false, _) => (gathered, missing),
            (true, 0) => (u64::MAX, 9),
            (true, 1) => (u64::MAX - 2, 11),
            (true, 2) => (gathered, missing.checked_sub(1).unwrap_or(1)),
            (true, _) => (gathered, missing + 1),
        };
        let target = if self.random.one_in(2) {
            "unknown".to_string()
        } else {
            format!("end {}", self.taken_slot())
        };
        let body = self.random.bytes(8);
        self.poke_body(&target, gathered, missing, &body);
    }

    /// Bytes gathered and left that are more than 512 together.
    fn break_result(&mut self, broken: bool) {
        let missing = self.random.pick(&[0, 1, 2, 40, 512]);
        let gathered = match (broken, self.random.below(4)) {
            (false, _) => 512 - missing,
            (true, 0) => u64::MAX - missing / 2,
            (true, _) => 513 - missing,
        };
        self.poke_body("values", gathered, missing, &[0; 512]);
    }
}
