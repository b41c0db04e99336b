//! A table of requests put together by pokes, and the pokes that go back to it.

use super::Draft;
use crate::console::words::hex;
use crate::server::{Request, Server};
use crate::state::{Life, Turn, SLOTS};

impl Draft {
    /// An open connection with some requests, all of it in shape and between two records.
    pub(super) fn poked_table(&mut self) {
        self.line("start");
        let one = 1 << self.random.below(16);
        let any = self.random.draw() & self.random.draw();
        let mask = match self.random.below(12) {
            0 => 0xffff,
            1 | 2 => any as u16 | one,
            _ => (any & self.random.draw()) as u16 | one,
        };
        self.line(format!("poke occupied {mask}"));
        let mut used = vec![0];
        for slot in (0..SLOTS).filter(|slot| mask >> slot & 1 == 1) {
            let mut id = self.any_id();
            while used.contains(&id) {
                id = self.any_id();
            }
            used.push(id);
            self.line(format!("poke id {slot} {id}"));
            self.poked_request(slot);
        }
    }

    /// Fields that free requests don't have; most keep to them, so that scripts stay short.
    pub(super) fn poked_request(&mut self, slot: usize) {
        if !self.random.one_in(3) {
            let role = self.random.within(1, 3);
            self.line(format!("poke role {slot} {role}"));
        }
        if self.random.one_in(4) {
            self.line(format!("poke keep {slot} 1"));
        }
        if !self.random.one_in(3) {
            let turn = self.random.pick(&["stdin", "data", "done"]);
            self.line(format!("poke turn {slot} {turn}"));
        }
        if self.random.one_in(4) {
            let life = self.random.pick(&["faulted", "aborted"]);
            self.line(format!("poke spent {slot} {life}"));
        }
        if self.random.one_in(4) {
            let field = self.random.pick(&["out_ended", "err_ended"]);
            self.line(format!("poke {field} {slot} 1"));
        }
        if self.random.one_in(6) {
            let length = self.random.pick(&[1, 40, 4_095, 4_096]);
            self.line(format!("poke length {slot} {length}"));
        }
    }

    /// Pokes what differs from an earlier state, and so goes back to it.
    pub(super) fn restore(&mut self, was: &Server) {
        let is = self.bench.server.clone();
        if is.open != was.open {
            self.line(format!("poke open {}", u8::from(was.open)));
        }
        if is.occupied != was.occupied {
            self.line(format!("poke occupied {}", was.occupied));
        }
        for (slot, (is, was)) in is.slots.iter().zip(&was.slots).enumerate() {
            if is != was {
                self.restore_request(slot, is, was);
            }
        }
        if (is.held, is.header) != (was.held, was.header) {
            self.poke_held(was.held, &hex(&was.header));
        }
        if is.padding != was.padding {
            self.line(format!("poke padding {}", was.padding));
        }
        // Bodies are not gone back to: what is left of the record is skipped.
        if (is.target, is.content) != (was.target, was.content) {
            self.line("poke target skip");
            self.line(format!("poke content {}", was.content.min(20)));
        }
    }

    fn restore_request(&mut self, slot: usize, is: &Request, was: &Request) {
        let mut poke = |field: &str, is: String, was: String| {
            if is != was {
                self.line(format!("poke {field} {slot} {was}"));
            }
        };
        let number = |flag: bool| u8::from(flag).to_string();
        let role = |request: &Request| (request.role as u8).to_string();
        let turn = |request: &Request| turn_word(request.turn).to_string();
        let life = |request: &Request| life_word(request.life).to_string();
        poke("id", is.id.to_string(), was.id.to_string());
        poke("length", is.length.to_string(), was.length.to_string());
        poke("role", role(is), role(was));
        poke("keep", number(is.keep), number(was.keep));
        poke("turn", turn(is), turn(was));
        poke("spent", life(is), life(was));
        poke("out_ended", number(is.out_ended), number(was.out_ended));
        poke("err_ended", number(is.err_ended), number(was.err_ended));
    }

    /// Header bytes, and how many of them are held.
    pub(super) fn poke_held(&mut self, held: u64, header: &str) {
        let mut lines = [format!("poke header {header}"), format!("poke held {held}")];
        if self.random.one_in(2) {
            lines.reverse();
        }
        for line in lines {
            self.line(line);
        }
    }

    /// A body, or a result, with all that belongs to it: its bytes are those that are gathered, and zeros.
    pub(super) fn poke_body(&mut self, target: &str, gathered: u64, content: u64, body: &[u8]) {
        self.line(format!("poke target {target}"));
        self.line(format!("poke gathered {gathered}"));
        self.line(format!("poke content {content}"));
        let field = if target == "values" { "values" } else { "body" };
        self.line(format!("poke {field} {}", hex(body)));
    }
}

fn turn_word(turn: Turn) -> &'static str {
    match turn {
        Turn::Params => "params",
        Turn::Stdin => "stdin",
        Turn::Data => "data",
        Turn::Done => "done",
    }
}

fn life_word(life: Life) -> &'static str {
    match life {
        Life::Live => "live",
        Life::Faulted => "faulted",
        Life::Aborted => "aborted",
    }
}
