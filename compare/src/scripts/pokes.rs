//! States that are put together by pokes, reachable or not, in shape or not, and then met by every call.

use super::records::begin_body;
use super::Draft;
use crate::console::words::hex;
use crate::pairs::{Pair, Pairs};
use crate::state::{area, Connection, Life, Request, Turn, AREA, SLOTS};

impl Draft {
    /// An open connection with some requests, all of it in shape and between two records.
    pub(super) fn poked_table(&mut self) {
        self.start();
        let mask = self.random.draw() as u16 | 1 << self.random.below(16);
        let mask = match self.random.below(8) {
            0 => 0xffff,
            1..=5 => mask & self.random.draw() as u16 | 1 << self.random.below(16),
            _ => mask,
        };
        self.line(format!("poke occupied {mask}"));
        let mut used = vec![0];
        for slot in (0..SLOTS).filter(|slot| mask >> slot & 1 == 1) {
            let mut id = self.any_id();
            while used.contains(&id) {
                id = self.any_id();
            }
            used.push(id);
            self.line(format!("poke id {slot} {id}"));
            self.poked_request(slot);
        }
    }

    /// Fields that free requests don't have; most keep to them, so that scripts stay short.
    fn poked_request(&mut self, slot: usize) {
        if !self.random.one_in(3) {
            let role = self.random.within(1, 3);
            self.line(format!("poke role {slot} {role}"));
        }
        if !self.random.one_in(5) {
            self.line(format!("poke keep {slot} 1"));
        }
        if !self.random.one_in(3) {
            let turn = self.random.pick(&["stdin", "data", "done"]);
            self.line(format!("poke turn {slot} {turn}"));
        }
        if self.random.one_in(4) {
            let life = self.random.pick(&["faulted", "aborted"]);
            self.line(format!("poke spent {slot} {life}"));
        }
        if self.random.one_in(4) {
            let field = self.random.pick(&["out_ended", "err_used", "err_ended"]);
            self.line(format!("poke {field} {slot} 1"));
        }
        if self.random.one_in(6) {
            self.poke_shown(slot);
        }
        if self.random.one_in(4) {
            let list = self.small_list();
            self.line(format!("poke length {slot} {}", list.len()));
            for (i, byte) in list.iter().enumerate() {
                self.line(format!("poke byte {} {byte}", slot * AREA + i));
            }
        } else if self.random.one_in(3) {
            let length = self.random.pick(&[1, 2, 40, AREA - 8, AREA - 1, AREA]);
            self.line(format!("poke length {slot} {length}"));
        }
    }

    /// Pokes what differs from an earlier state, and so goes back to it.
    pub(super) fn restore(&mut self, was: &Connection) {
        let is = self.console.connection.clone();
        if is.open != was.open {
            self.line(format!("poke open {}", u8::from(was.open)));
        }
        if is.occupied != was.occupied {
            self.line(format!("poke occupied {}", was.occupied));
        }
        for (slot, (is, was)) in is.slots.iter().zip(&was.slots).enumerate() {
            if is != was {
                self.restore_request(slot, is, was);
            }
        }
        if (is.held, is.header) != (was.held, was.header) {
            self.line(format!("poke header {}", hex(&was.header)));
            self.line(format!("poke held {}", was.held));
        }
        if is.padding != was.padding {
            self.line(format!("poke padding {}", was.padding));
        }
        // Bodies are not gone back to: what is left of the record is skipped.
        if (is.target, is.content) != (was.target, was.content) {
            self.line("poke target skip");
            self.line(format!("poke content {}", was.content.min(20)));
        }
        // Nor is what waits: it only has to be in shape.
        self.mend_waits();
    }

    fn restore_request(&mut self, slot: usize, is: &Request, was: &Request) {
        let mut poke = |field: &str, is: String, was: String| {
            if is != was {
                self.line(format!("poke {field} {slot} {was}"));
            }
        };
        let number = |flag: bool| u8::from(flag).to_string();
        let role = |request: &Request| (request.role as u8).to_string();
        poke("id", is.id.to_string(), was.id.to_string());
        poke("length", is.length.to_string(), was.length.to_string());
        poke("role", role(is), role(was));
        poke("keep", number(is.keep), number(was.keep));
        poke(
            "turn",
            turn_word(is.turn).into(),
            turn_word(was.turn).into(),
        );
        poke(
            "spent",
            life_word(is.life).into(),
            life_word(was.life).into(),
        );
        poke("out_ended", number(is.out_ended), number(was.out_ended));
        poke("err_used", number(is.err_used), number(was.err_used));
        poke("err_ended", number(is.err_ended), number(was.err_ended));
        for (stream, is, was) in [
            ("stdin", is.stdin_shown, was.stdin_shown),
            ("data", is.data_shown, was.data_shown),
        ] {
            if is != was {
                self.line(format!("poke shown {slot} {stream} {was}"));
            }
        }
    }

    pub(super) fn poked_state(&mut self) {
        self.choose_cut();
        if self.random.one_in(3) && self.open() {
            // On top of what traffic left.
        } else {
            self.poked_table();
        }
        let was = self.console.connection.clone();
        for _ in 0..self.random.within(2, 8) {
            self.script.states += 1;
            for _ in 0..self.random.within(1, 3) {
                self.poke_any();
            }
            if self.random.one_in(3) {
                self.every_call();
            }
            for _ in 0..self.random.within(1, 6) {
                self.any_call();
            }
            if self.random.one_in(6) {
                self.two_streams();
            }
            let n = self.random.within(1, 40);
            let bytes = self.piece_for_state(n);
            self.feed(&bytes);
            self.line("active");
            if self.random.one_in(2) || self.last() == "refused 9" {
                self.restore(&was);
            }
        }
        if self.random.one_in(2) {
            self.start();
        }
    }

    /// Data of both streams of a request, one directly behind the other: traffic has an end between them.
    fn two_streams(&mut self) {
        let active = self.active_ids();
        let Some(&id) = active.first() else { return };
        let slot = self.console.connection.find(id).unwrap_or(0);
        let (due, kind) = self.random.pick(&[("data", 5), ("stdin", 8)]);
        let turn = if kind == 5 { "stdin" } else { "data" };
        self.line(format!("poke turn {slot} {turn}"));
        self.line(format!("poke target {due} {slot}"));
        self.line("poke content 2");
        self.line("poke padding 0");
        self.line("poke held 0");
        let [high, low] = id.to_be_bytes();
        let mut bytes = self.random.bytes(2);
        bytes.extend([1, kind, high, low, 0, 1, 0, 0, 9]);
        self.feed_line(&bytes);
    }

    /// Bytes that go on with the record that the state is in, and then with one of an active request.
    fn piece_for_state(&mut self, n: usize) -> Vec<u8> {
        let connection = &self.console.connection;
        let left = (connection.content.min(50) + connection.padding.min(50)) as usize;
        let mut bytes = self.random.bytes(left.min(n));
        let id = self.some_id();
        let kind = self.random.pick(&[1, 2, 4, 4, 5, 5, 8, 8, 9, 6]);
        let length = self.random.pick(&[0, 0, 0, 3, 8]);
        bytes.extend([1, kind, (id >> 8) as u8, id as u8, 0, length, 0, 0]);
        bytes.extend(self.random.bytes(length.into()));
        bytes
    }

    /// A slot's field, the reader's counts, or the target with all that belongs to it.
    fn poke_any(&mut self) {
        let slot = self.random.index(SLOTS);
        match self.random.below(40) {
            0 => {
                let open = self.random.index(2);
                self.line(format!("poke open {open}"));
            }
            1 => {
                let word = self.random.draw() as u16;
                self.line(format!("poke occupied {word}"));
            }
            2 => {
                let word = self.console.connection.occupied ^ 1 << slot;
                self.line(format!("poke occupied {word}"));
            }
            3 => {
                let id = self.some_id();
                self.line(format!("poke id {slot} {id}"));
            }
            4 => {
                let lengths = [0, 1, 15, AREA - 1, AREA, AREA + 1, 65_535];
                let length = self.random.pick(&lengths);
                self.line(format!("poke length {slot} {length}"));
            }
            5 | 6 => self.poked_request(slot),
            7..=9 => self.poke_list(slot),
            10..=12 => {
                let held = self.random.pick(&[0, 1, 3, 6, 7, 7, 8, 9, u64::MAX]);
                let header = self.half_header();
                self.line(format!("poke header {header}"));
                self.line(format!("poke held {held}"));
            }
            13 => {
                let left = self.random.pick(&[0, 1, 5, 254, 255, 256, u64::MAX]);
                self.line(format!("poke padding {left}"));
            }
            14 => {
                let left = self.random.pick(&[0, 1, 5, 65_535, 65_536, u64::MAX]);
                self.line("poke target skip");
                self.line(format!("poke content {left}"));
            }
            15..=17 => self.poke_begin(),
            18..=20 => self.poke_query(),
            21 | 22 => self.poke_live(),
            23 => self.poke_shown(slot),
            24 => self.poke_stated(slot),
            25..=34 => self.poke_waits(),
            _ => self.poke_due(slot),
        }
    }

    /// A damaged list, mostly of an active request: any of its bytes, a name that then comes twice, a pair that is
    /// malformed.
    fn poke_list(&mut self, slot: usize) {
        let id = self.some_id();
        let slot = self.console.connection.find(id).unwrap_or(slot);
        let done = match self.random.below(4) {
            0 => self.poke_name_twice(slot),
            1 | 2 => self.poke_broken(),
            _ => false,
        };
        if done {
            return;
        }
        let place = slot * AREA + self.random.index(24);
        let value = self.random.pick(&[0, 1, 2, 3, 5, 127, 128, 255]);
        self.line(format!("poke byte {place} {value}"));
    }

    /// A name becomes that of an earlier pair: after PARAMS has ended nothing else leads to a list with two matches.
    /// Answers whether two names have the length for it.
    pub(super) fn poke_name_twice(&mut self, slot: usize) -> bool {
        let request = self.console.connection.slots[slot];
        let length = usize::from(request.length).min(AREA);
        let list = self.console.store[area(slot)][..length].to_vec();
        let pairs: Vec<Pair> = Pairs::new(&list).collect();
        let fits = |one: &Pair, two: &Pair| {
            one.name_length == two.name_length && one.name_length < 12 && one.name_at < two.name_at
        };
        let found = pairs
            .iter()
            .find_map(|one| Some((one, pairs.iter().find(|two| fits(one, two))?)));
        let Some((one, two)) = found else {
            return false;
        };
        let name = one.name(&list);
        for (i, byte) in name.iter().enumerate() {
            let place = slot * AREA + two.name_at + i;
            self.line(format!("poke byte {place} {byte}"));
        }
        self.line(format!("value {} {} -", request.id, hex(name)));
        true
    }

    /// A request that is not spent any more shows what a fault or an abort left of it.
    pub(super) fn poke_live(&mut self) {
        let connection = &self.console.connection;
        let spent: Vec<_> = (0..SLOTS)
            .filter(|&slot| connection.taken(slot) && connection.slots[slot].spent())
            .collect();
        if !spent.is_empty() {
            let slot = self.random.pick(&spent);
            let id = self.console.connection.slots[slot].id;
            self.line(format!("poke spent {slot} live"));
            self.line(format!("walk {id}"));
        }
    }

    /// The first bytes of a header that means something here.
    fn half_header(&mut self) -> String {
        let id = self.some_id();
        let kind = self.random.pick(&[1, 2, 4, 5, 8, 9]);
        let [high, low] = id.to_be_bytes();
        let n = self.random.within(0, 8);
        hex(&[1, kind, high, low, 0, 8, 1, 9][..n])
    }

    pub(super) fn poke_body(&mut self, target: &str, gathered: u64, content: u64, body: &[u8]) {
        self.line(format!("poke target {target}"));
        self.line(format!("poke gathered {gathered}"));
        self.line(format!("poke content {content}"));
        self.line(format!("poke body {}", hex(body)));
    }

    fn poke_begin(&mut self) {
        let id = self.some_id();
        let gathered = self.random.below(9);
        let content = match self.random.below(8) {
            0 => self.random.below(10),
            _ => 8 - gathered,
        };
        let body = begin_body(&mut self.random);
        self.poke_body(&format!("begin {id}"), gathered, content, &body);
    }

    fn poke_query(&mut self) {
        let content = self.random.pick(&[0, 1, 2, 16, 512]);
        let gathered = match self.random.below(6) {
            0 => 513 - content,
            1 => 512 - content,
            _ => self.random.below(40).min(512 - content),
        };
        // Empty pairs, so that what comes can still make it well formed.
        let mut body = vec![0; gathered as usize];
        if gathered == 16 {
            body = b"\x0e\x00FCGI_MAX_CONNS".to_vec();
        } else if self.random.one_in(4) {
            body = self.random.bytes(gathered.min(512) as usize);
        }
        body.truncate(512);
        self.poke_body("query", gathered, content, &body);
    }

    /// Content due to a slot, mostly a taken one; of any kind, whatever the turn is.
    fn poke_due(&mut self, slot: usize) {
        let active = self.active_ids();
        let slot = if active.is_empty() || self.random.one_in(8) {
            self.random.pick(&[slot, 15, 16, 17, 128, 255])
        } else {
            let id = self.random.pick(&active);
            self.console.connection.find(id).unwrap_or(slot)
        };
        let kind = self.random.pick(&["params", "stdin", "data"]);
        let content = self.random.pick(&[0, 1, 3, 7, 8, 9, AREA]);
        self.line(format!("poke target {kind} {slot}"));
        self.line(format!("poke content {content}"));
    }
}

fn turn_word(turn: Turn) -> &'static str {
    match turn {
        Turn::Params => "params",
        Turn::Stdin => "stdin",
        Turn::Data => "data",
        Turn::Done => "done",
    }
}

fn life_word(life: Life) -> &'static str {
    match life {
        Life::Live => "live",
        Life::Faulted => "faulted",
        Life::Aborted => "aborted",
    }
}
