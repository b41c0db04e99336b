//! States that are put together by pokes, reachable or not, in shape or not, and then met by calls and replies.

use super::Draft;
use crate::console::words::hex;
use crate::scripts::lists::{any_name, append_pair};
use crate::state::{AREA, SLOTS};
use crate::wire::{kind, record_with};

impl Draft {
    pub(super) fn poked_state(&mut self) {
        self.choose_cut();
        if !self.open() || !self.random.one_in(3) {
            self.poked_table();
        }
        let was = self.bench.server.clone();
        for _ in 0..self.random.within(2, 8) {
            self.script.states += 1;
            for _ in 0..self.random.within(1, 3) {
                self.poke_any();
            }
            if self.random.one_in(4) {
                self.every_call();
            }
            for _ in 0..self.random.within(1, 6) {
                self.any_call();
            }
            let bytes = self.piece_for_state();
            self.send(&bytes);
            if self.random.one_in(4) {
                self.forgotten();
            }
            self.line("opened");
            if self.random.one_in(2) || self.last() == "refused 9" {
                self.restore(&was);
            }
        }
        if self.random.one_in(2) {
            self.line("values");
            self.line("start");
            self.line("values");
        }
    }

    /// Bytes that go on with the record that the state is in, and then with one for an open request.
    fn piece_for_state(&mut self) -> Vec<u8> {
        let server = &self.bench.server;
        let left = (server.content.min(600) + server.padding.min(50)) as usize;
        let zeros = self.random.one_in(2);
        let mut bytes = if zeros {
            vec![0; left]
        } else {
            self.random.bytes(left)
        };
        if self.random.one_in(4) {
            bytes.truncate(self.random.index(left + 1));
            return bytes;
        }
        let id = self.some_id();
        let kind = self.random.pick(&[3, 3, 6, 6, 7, 7, 6, 7, 10, 11]);
        let id = if kind < 10 { id } else { 0 };
        let length = match kind {
            kind::END | kind::UNKNOWN_TYPE => 8,
            _ => self.random.pick(&[0, 0, 2, 8]),
        };
        let content = self.random.bytes(length);
        bytes.extend(record_with(kind, id, &content, 0, &[]));
        bytes
    }

    /// A slot's field, the reader's counts, or the target with all that belongs to it.
    fn poke_any(&mut self) {
        let slot = self.random.index(SLOTS);
        match self.random.below(29) {
            0 => {
                let open = self.random.index(2);
                self.line(format!("poke open {open}"));
            }
            1 => {
                let word = self.random.draw() as u16;
                self.line(format!("poke occupied {word}"));
            }
            2 => {
                let word = self.bench.server.occupied ^ 1 << slot;
                self.line(format!("poke occupied {word}"));
            }
            3 => {
                let id = self.some_id();
                self.line(format!("poke id {slot} {id}"));
            }
            4 => {
                let length = self.random.pick(&[0, 1, AREA - 1, AREA, AREA + 1, 65_535]);
                self.line(format!("poke length {slot} {length}"));
            }
            5 | 6 => self.poked_request(slot),
            7 | 8 => self.poke_ended(),
            9 | 10 => self.poke_live(),
            11 | 12 => {
                let held = self.random.pick(&[0, 1, 3, 6, 7, 7, 8, 9, u64::MAX]);
                let header = self.half_header();
                self.poke_held(held, &header);
            }
            13 => {
                let left = self.random.pick(&[0, 1, 5, 254, 255, 256, u64::MAX]);
                self.line(format!("poke padding {left}"));
            }
            14 | 15 => {
                let left = self.random.pick(&[0, 1, 5, 20, 65_535, 65_536, u64::MAX]);
                self.line("poke target skip");
                self.line(format!("poke content {left}"));
            }
            16..=18 => self.poke_small_body(),
            19..=21 => self.poke_result(),
            22 | 23 => self.poke_revived(),
            24 => {
                let n = self.random.pick(&[0, 1, 511, 512]);
                let values = hex(&self.random.bytes(n));
                self.line(format!("poke values {values}"));
                self.line("values");
            }
            _ => self.poke_due(slot),
        }
    }

    /// The streams of an open request are ended or not.
    fn poke_ended(&mut self) {
        let id = self.open_id();
        let Some(slot) = self.bench.server.find(id) else {
            return;
        };
        let field = self.random.pick(&["out_ended", "err_ended"]);
        let flag = self.random.index(2);
        self.line(format!("poke {field} {slot} {flag}"));
    }

    /// A request that is not aborted any more shows that its turn stayed.
    fn poke_live(&mut self) {
        let server = &self.bench.server;
        let aborted: Vec<usize> = (0..SLOTS)
            .filter(|&slot| server.taken(slot) && server.slots[slot].aborted())
            .collect();
        if aborted.is_empty() {
            return;
        }
        let slot = self.random.pick(&aborted);
        let id = self.bench.server.slots[slot].id;
        self.line(format!("poke spent {slot} live"));
        self.write_on(id);
    }

    /// Output that is all read is due to nobody any more: its slot may go.
    fn forgotten(&mut self) {
        let id = self.open_id();
        let kind = self.random.pick(&[kind::STDOUT, kind::STDERR]);
        let rest = self.rest_of_record();
        if !self.send(&rest) || self.bench.server.held > 0 {
            return;
        }
        self.feed_line(&record_with(kind, id, b"x", 0, &[]));
        let word = self.bench.server.occupied;
        self.line("poke occupied 0");
        self.line("opened");
        self.line(format!("poke occupied {word}"));
    }

    /// A free slot, mostly one that an END has freed just now, is taken again without an opening: it has nothing left
    /// of its last request.
    fn poke_revived(&mut self) {
        let id = self.open_id();
        let was = self.bench.server.find(id);
        let mut bytes = self.rest_of_record();
        bytes.extend(self.end_record(id));
        self.send(&bytes);
        let freed = was.filter(|&slot| !self.bench.server.taken(slot));
        let Some(slot) = freed.or_else(|| self.free_slot()) else {
            return;
        };
        let word = self.bench.server.occupied | 1 << slot;
        self.line(format!("poke occupied {word}"));
        self.line("opened");
        let id = self.free_id();
        self.line(format!("poke id {slot} {id}"));
        self.write_on(id);
    }

    /// The first bytes of a header that means something here.
    fn half_header(&mut self) -> String {
        let id = self.some_id();
        let kind = self.random.pick(&[3, 6, 6, 7, 10, 11]);
        let [high, low] = if kind < 10 { id } else { 0 }.to_be_bytes();
        let n = self.random.within(0, 8);
        hex(&[1, kind, high, low, 0, 8, 1, 9][..n])
    }

    fn poke_small_body(&mut self) {
        let gathered = self.random.below(9);
        let content = match self.random.below(8) {
            0 => self.random.below(10),
            _ => 8 - gathered,
        };
        let body = self.random.bytes(8);
        let target = if self.random.one_in(4) {
            "unknown".to_string()
        } else {
            format!("end {}", self.due_slot())
        };
        self.poke_body(&target, gathered, content, &body);
    }

    fn poke_result(&mut self) {
        let content = self.random.pick(&[0, 1, 2, 16, 512]);
        let gathered = match self.random.below(6) {
            0 => 513 - content,
            1 => 512 - content,
            _ => self.random.below(40).min(512 - content),
        };
        // Empty pairs, so that what comes can still make it well formed; or a pair that wants its value.
        let mut values = vec![0; gathered as usize];
        if self.random.one_in(3) {
            values.clear();
            append_pair(&mut values, &any_name(&mut self.random), &[]);
        } else if self.random.one_in(4) {
            values = self.random.bytes(gathered as usize);
        }
        values.truncate(512);
        self.poke_body("values", gathered, content, &values);
    }

    /// Mostly a taken slot.
    fn due_slot(&mut self) -> usize {
        let open = self.open_ids();
        if open.is_empty() || self.random.one_in(8) {
            return self.random.pick(&[0, 7, 15, 16, 17, 128, 255]);
        }
        let id = self.random.pick(&open);
        self.bench.server.find(id).unwrap_or(0)
    }

    /// Output due to a slot, whether the stream is ended or not.
    fn poke_due(&mut self, slot: usize) {
        let slot = if self.random.one_in(8) {
            slot
        } else {
            self.due_slot()
        };
        let kind = self.random.pick(&["stdout", "stderr"]);
        let content = self.random.pick(&[0, 1, 3, 7, 8, 9, 600]);
        self.line(format!("poke target {kind} {slot}"));
        self.line(format!("poke content {content}"));
    }
}
