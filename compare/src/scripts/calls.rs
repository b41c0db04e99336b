//! Calls anywhere, with any arguments; rooms at the edge of what is needed.

use super::lists::{any_name, append_pair};
use super::Draft;
use crate::answer::Event;
use crate::console::words::hex;
use crate::output::stream_length;
use crate::pairs::{pair_length, Pairs};
use crate::state::{area, AREA, STORE};

impl Draft {
    pub(super) fn any_calls(&mut self) {
        let short = self.random.one_in(6);
        if short {
            let n = self.random.pick(&[0, 1, AREA, STORE - 1, STORE + 1, 512]);
            self.line(format!("lend {n}"));
            // All of the store is looked at, whatever is lent.
            self.line("store");
        }
        for _ in 0..self.random.within(3, 20) {
            self.any_call();
        }
        if short {
            self.every_call();
            // A start that is refused answers a closed connection.
            if self.random.one_in(2) {
                self.start();
                self.every_call();
            }
            self.line(format!("lend {STORE}"));
        }
    }

    pub(super) fn any_call(&mut self) {
        let id = self.some_id();
        match self.random.below(116) {
            0..=19 => self.value(id),
            20..=33 => self.pair(id),
            34..=43 => {
                self.line(format!("walk {id}"));
            }
            44..=60 => self.say(id),
            61..=64 => self.end(id),
            65..=74 => self.owed(),
            75..=79 => self.put(),
            80..=82 => self.finish(id),
            83..=89 => {
                self.line("active");
            }
            90..=93 => {
                self.line(format!("area {id}"));
            }
            94 | 95 => {
                self.line(format!("counts {id}"));
            }
            96 => {
                let line = self.random.pick(&["step -", "next -", "feed 8 -"]);
                self.line(line);
            }
            97..=100 => self.reading_call(),
            101..=103 => self.correct_call(),
            104..=112 => self.queue_call(id),
            _ => {
                self.line("store");
            }
        }
    }

    /// One of each kind, whatever the state is.
    pub(super) fn every_call(&mut self) {
        let id = self.some_id();
        self.line("active");
        self.line("step -");
        self.line("next -");
        self.value(id);
        self.pair(id);
        self.line(format!("walk {id}"));
        self.line(format!("counts {id}"));
        self.say(id);
        self.end(id);
        self.finish(id);
        self.every_queue_call();
        self.owed();
        if self.random.one_in(4) {
            self.put();
            self.line(format!("area {id}"));
            self.line("store");
        }
        let n = self.random.within(1, 10);
        let piece = self.random.bytes(n);
        if self.random.one_in(3) {
            self.feed_line(&piece);
            self.owed();
        } else {
            self.piece_line(&piece);
        }
    }

    /// The same of those about what waits, of another request. A turn comes last, since it may close the connection.
    pub(super) fn every_queue_call(&mut self) {
        let id = self.some_id();
        self.queue_say(id);
        self.queue_end(id);
        if self.random.one_in(3) {
            self.queue_finish(id);
        }
        self.line(format!("waits {id}"));
        self.pump();
        if self.random.one_in(4) {
            self.line("numbers");
        }
    }

    /// Just enough, one less, none, or plenty.
    pub(super) fn room(&mut self, needed: usize) -> usize {
        match self.random.below(10) {
            0..=2 => needed,
            3 => needed.saturating_sub(1),
            4 => 0,
            5 => needed + 1,
            6 => needed + 40,
            7 => 64,
            _ => needed + self.random.index(300),
        }
        .min(70_000)
    }

    /// Mostly a name that the request has.
    fn known_name(&mut self, id: u16) -> Vec<u8> {
        let connection = &self.console.connection;
        if let Some(slot) = connection.find(id) {
            let length = usize::from(connection.slots[slot].length).min(AREA);
            let list = &self.console.store[area(slot)][..length];
            let names: Vec<_> = Pairs::new(list).map(|p| p.name(list).to_vec()).collect();
            if !names.is_empty() && !self.random.one_in(4) {
                return self.random.pick(&names);
            }
        }
        any_name(&mut self.random)
    }

    pub(super) fn value(&mut self, id: u16) {
        let name = hex(&self.known_name(id));
        let n = self.random.index(4);
        let fallback = hex(&self.random.bytes(n));
        self.line(format!("value {id} {name} {fallback}"));
    }

    pub(super) fn pair(&mut self, id: u16) {
        let k = match self.random.below(12) {
            0 => u64::MAX,
            1 => 1 << 32,
            2 => 1 << 63,
            _ => self.random.below(7),
        };
        self.line(format!("pair {id} {k}"));
    }

    pub(super) fn stream(&mut self) -> &'static str {
        self.random.pick(&["stdout", "stderr"])
    }

    pub(super) fn say(&mut self, id: u16) {
        let n = match self.random.below(70) {
            0 => self.random.pick(&[8_183, 8_184, 8_185, 16_368, 16_369]),
            1..=20 => self.random.pick(&[0, 1, 7, 8, 9]),
            _ => self.random.within(1, 40),
        };
        let data = hex(&self.random.bytes(n));
        let stream = self.stream();
        let room = self.room(stream_length(n));
        self.line(format!("say {id} {stream} {data} {room}"));
    }

    pub(super) fn end(&mut self, id: u16) {
        let stream = self.stream();
        let room = self.room(8);
        self.line(format!("end {id} {stream} {room}"));
    }

    fn owed(&mut self) {
        let needed = match self.console.event {
            Some(Event::Refuse { .. } | Event::Unknown { .. }) => 16,
            Some(Event::Query(_)) => self.random.pick(&[8, 32, 48, 64]),
            _ => 0,
        };
        let room = self.room(needed);
        self.line(format!("owed {room}"));
    }

    fn put(&mut self) {
        let mut value = any_name(&mut self.random);
        if self.random.one_in(20) {
            let n = self.random.within(200, 3_000);
            value = self.random.bytes(n);
        }
        let mut name = any_name(&mut self.random);
        // The longest that can be written, and one byte more; seldom, since the lines are long.
        if self.random.one_in(150) {
            let long = vec![self.random.byte(); self.random.pick(&[65_535, 65_536])];
            (name, value) = if self.random.one_in(2) {
                (long, vec![])
            } else {
                (name, long)
            };
        }
        let room = self.room(pair_length(&name, &value));
        self.line(format!("put {} {} {room}", hex(&name), hex(&value)));
    }

    pub(super) fn finish(&mut self, id: u16) {
        let status = self.random.draw() as u32 >> self.random.below(32);
        let needed = self.random.pick(&[16, 24, 32]);
        let room = self.room(needed);
        self.line(format!("finish {id} {status} {room}"));
    }

    /// A list for an area that is written by pokes.
    pub(super) fn small_list(&mut self) -> Vec<u8> {
        let mut list = Vec::new();
        for _ in 0..self.random.within(1, 3) {
            let name = self.random.pick(&["A", "AB", "", "READING"]);
            let n = self.random.index(5);
            let value = self.random.bytes(n);
            append_pair(&mut list, name.as_bytes(), &value);
        }
        list
    }
}
