//! Calls in and out of turn, with any arguments; rooms at the edge of what is needed.

use super::Draft;
use crate::console::words::hex;
use crate::scripts::lists::{any_name, any_value, append_long_pair, damaged_list, filled_list};
use crate::scripts::records::query;
use crate::state::{Turn, SLOTS};

/// The room that every writer has enough of.
const PLENTY: usize = 70_000;

impl Draft {
    pub(super) fn any_calls(&mut self) {
        for _ in 0..self.random.within(3, 20) {
            self.any_call();
        }
        if self.random.one_in(2) {
            self.long_pair();
        }
        if self.random.one_in(4) {
            self.long_input();
        }
    }

    pub(super) fn any_call(&mut self) {
        let id = self.some_id();
        match self.random.below(40) {
            0..=5 => self.open_call(),
            6..=14 => self.write_on(id),
            15..=17 => self.pair_call(id),
            18..=20 => self.write_call(id),
            21..=23 => self.end_call(id),
            24 | 25 => self.with_room(&format!("abort {id}")),
            26..=29 => self.ask_call(),
            30..=33 => {
                self.line("opened");
            }
            34..=36 => {
                self.line("values");
            }
            37 | 38 => {
                let line = self.random.pick(&["step -", "feed 8 -", "feed 1 -"]);
                self.line(line);
            }
            _ => {
                let line = self.random.pick(&["wait 1", "hang", "wait 0", "start "]);
                self.line(line);
            }
        }
    }

    /// One of each kind, whatever the state is.
    pub(super) fn every_call(&mut self) {
        let id = self.some_id();
        self.line("opened");
        self.line("step -");
        self.open_call();
        self.pair_call(id);
        self.write_call(id);
        self.end_call(id);
        self.with_room(&format!("abort {id}"));
        self.ask_call();
        self.line("values");
        let n = self.random.within(1, 10);
        let piece = self.random.bytes(n);
        if self.random.one_in(2) {
            self.feed_line(&piece);
        } else {
            self.step_line(&piece);
        }
    }

    /// A writer with a room that is just enough, one less, none, or plenty: what it needs is tried first.
    pub(super) fn with_room(&mut self, command: &str) {
        let tried = format!("{command} {PLENTY}");
        let answer = self.bench.clone().answer(tried.as_bytes());
        let mut words = answer.split(' ').skip_while(|&word| word != "wrote");
        let needed = words.nth(1).and_then(|n| n.parse().ok());
        // A call that is refused anyway may also lack the room.
        let needed: usize = needed.unwrap_or_else(|| self.random.pick(&[0, 8, 16]));
        let room = match self.random.below(12) {
            0..=3 => needed,
            4 => needed.saturating_sub(1),
            5 => 0,
            6 => needed + 1,
            7 => needed + 8,
            8 => PLENTY,
            _ => needed + self.random.index(300),
        };
        self.line(format!("{command} {}", room.min(PLENTY)));
    }

    /// Mostly an opening that is taken.
    pub(super) fn open_call(&mut self) {
        let id = match self.random.below(10) {
            0 => 0,
            1 | 2 => self.open_id(),
            _ => self.free_id(),
        };
        let role = match self.random.below(8) {
            0 => self
                .random
                .pick(&[0, 4, 255, 256, 257, 258, 259, 769, 65_535]),
            _ => self.random.within(1, 3),
        };
        let keep = self.keep();
        self.with_room(&format!("open {id} {role} {keep}"));
    }

    fn keep(&mut self) -> &'static str {
        self.random.pick(&["keep", "drop"])
    }

    /// What is next in turn for a request, or is an end of that.
    pub(super) fn write_on(&mut self, id: u16) {
        let server = &self.bench.server;
        let turn = server.find(id).map(|slot| server.slots[slot].turn);
        let ends = self.random.one_in(4);
        match (turn, ends) {
            (Some(Turn::Params), true) => self.with_room(&format!("end {id} params")),
            (Some(Turn::Stdin), true) => self.with_room(&format!("end {id} stdin")),
            (Some(Turn::Data), true) => self.with_room(&format!("end {id} data")),
            (Some(Turn::Params), false) => self.pair_call(id),
            (Some(Turn::Stdin), false) => self.write_stream(id, "stdin"),
            (Some(Turn::Data), false) => self.write_stream(id, "data"),
            (Some(Turn::Done), true) => self.with_room(&format!("abort {id}")),
            (Some(Turn::Done), false) => self.write_call(id),
            (None, _) => self.open_call(),
        }
    }

    pub(super) fn pair_call(&mut self, id: u16) {
        let name = any_name(&mut self.random);
        let value = match self.random.below(24) {
            0 => {
                // The content of the pair is a record, or one byte less or more; or two records.
                let whole = self.random.pick(&[8_184, 8_184, 16_368]);
                let lengths = 4 + if name.len() < 128 { 1 } else { 4 };
                let n = whole - lengths - name.len() + self.random.within(0, 4) - 2;
                self.random.bytes(n)
            }
            1 => {
                let n = self.random.within(200, 3_000);
                self.random.bytes(n)
            }
            _ => any_value(&mut self.random),
        };
        self.with_room(&format!("pair {id} {} {}", hex(&name), hex(&value)));
    }

    fn write_call(&mut self, id: u16) {
        let stream = self.random.pick(&["stdin", "data"]);
        self.write_stream(id, stream);
    }

    fn write_stream(&mut self, id: u16, stream: &str) {
        let n = match self.random.below(50) {
            0 => self
                .random
                .pick(&[8_183, 8_184, 8_185, 16_367, 16_368, 16_369]),
            1..=18 => self.random.pick(&[0, 0, 1, 7, 8, 9]),
            _ => self.random.within(1, 40),
        };
        let data = hex(&self.random.bytes(n));
        self.with_room(&format!("write {id} {stream} {data}"));
    }

    fn end_call(&mut self, id: u16) {
        let stream = self.random.pick(&["params", "stdin", "data"]);
        self.with_room(&format!("end {id} {stream}"));
    }

    /// A name or a value of 65,535 bytes, or of one more; seldom, since the lines are long. Also of a request that may
    /// not write it, and with no room.
    pub(super) fn long_pair(&mut self) {
        let refused = !self.open() || !self.bench.server.in_shape();
        if refused && !self.random.one_in(8) {
            self.line("start");
        }
        let mut id = self.free_id();
        if self.open_ids().len() == SLOTS || self.random.one_in(4) {
            id = self.params_id();
        } else {
            self.line(format!("open {id} 1 keep 16"));
        }
        match self.random.below(8) {
            0 => {
                self.line(format!("end {id} params 8"));
            }
            1 => {
                self.line(format!("abort {id} 8"));
            }
            2 => id = self.some_id(),
            _ => {}
        }
        let long = vec![self.random.byte(); self.random.pick(&[65_535, 65_536])];
        let n = self.random.index(3);
        let short = self.random.bytes(n);
        let (name, value) = if self.random.one_in(2) {
            (long, short)
        } else {
            (short, long)
        };
        self.with_room(&format!("pair {id} {} {}", hex(&name), hex(&value)));
    }

    /// An open request whose PARAMS are in turn; any where there is none.
    fn params_id(&mut self) -> u16 {
        let server = &self.bench.server;
        let found = (0..SLOTS).find(|&slot| {
            let request = &server.slots[slot];
            server.taken(slot) && request.turn == Turn::Params && !request.aborted()
        });
        match found {
            Some(slot) => server.slots[slot].id,
            None => self.some_id(),
        }
    }

    /// As many bytes as a line holds, or a buffer.
    fn long_input(&mut self) {
        let id = self.some_id();
        let n = self.random.pick(&[65_472, 65_535, 65_536, 69_900]);
        let data = hex(&vec![self.random.byte(); n]);
        let stream = self.random.pick(&["stdin", "stdin", "data"]);
        self.with_room(&format!("write {id} {stream} {data}"));
    }

    fn ask_call(&mut self) {
        let list = match self.random.below(12) {
            0 => Vec::new(),
            1 | 2 => {
                let n = self.random.pick(&[511, 512, 512, 513]);
                filled_list(&mut self.random, n)
            }
            3 | 4 => damaged_list(&mut self.random),
            // Over 512 bytes, and malformed too.
            5 => vec![0xff; self.random.pick(&[511, 512, 513, 600])],
            6 => {
                let mut list = Vec::new();
                append_long_pair(&mut self.random, &mut list, b"FCGI_MAX_REQS", b"");
                list
            }
            _ => query(&mut self.random),
        };
        self.with_room(&format!("ask {}", hex(&list)));
    }

    /// All 16 slots are taken, and then openings that are refused for this and for that; some END makes room.
    pub(super) fn all_slots(&mut self) {
        self.choose_cut();
        if !self.open() || self.random.one_in(2) {
            self.line("start");
        }
        while self.open_ids().len() < SLOTS {
            let (id, role, keep) = (self.free_id(), self.random.within(1, 3), self.keep());
            let line = format!("open {id} {role} {keep} 16");
            // A state out of shape takes none.
            if self.line(line).starts_with("refused") {
                return;
            }
            if self.random.one_in(4) {
                self.write_on(id);
            }
        }
        for _ in 0..self.random.within(2, 6) {
            match self.random.below(6) {
                0 => {
                    self.line("opened");
                }
                2 => {
                    // 59 comes before 60, and before 6.
                    let (id, role) = (self.free_id(), self.random.pick(&[0, 4, 1]));
                    let room = self.random.pick(&[0, 16]);
                    self.line(format!("open {id} {role} keep {room}"));
                }
                1 => {
                    let id = self.open_id();
                    let bytes = self.end_record(id);
                    if !self.send(&bytes) {
                        return;
                    }
                }
                _ => self.open_call(),
            }
        }
    }
}
