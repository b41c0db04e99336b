//! The twin of the console: every call by a line of text, and its answer as a line. `docs/CONSOLE.md` says which.

pub mod correction;
mod feed;
pub mod poke;
mod queue;
mod readings;
pub mod text;
pub mod words;

use crate::answer::{Event, Output, Refusal, Source, Step};
use crate::pairs::{write_pair, Pair, Reading};
use crate::queue::{Waits, QUEUE};
use crate::readings::Reader;
use crate::reply::reply;
use crate::state::{area, Connection, AREA, STORE};
use std::fmt::Write;
use words::{bytes, hex, id, number, room};

/// The longest line that is read, its newline not counted. It is too short for more than 70,000 bytes in hex.
pub const LONGEST_LINE: usize = 140_000;
/// One byte more than a connection takes, so that a store that is too long can be lent.
pub const WHOLE_STORE: usize = STORE + 1;
/// The same for the queue.
pub const WHOLE_QUEUE: usize = QUEUE + 1;
/// What a lent buffer is filled with before the call.
const FILL: u8 = 0xee;

/// The whole store and the whole queue are kept here whatever part of them is lent.
#[derive(Clone)]
pub struct Console {
    pub connection: Connection,
    pub waits: Waits,
    pub store: Vec<u8>,
    pub lent: usize,
    pub queue: Vec<u8>,
    pub lent_queue: usize,
    /// The event that `owed` replies to.
    pub event: Option<Event>,
    /// What reads a body of readings. It has nothing to do with the connection.
    pub reader: Reader,
    /// What a call must not change where it is refused, as it was before.
    before: Kept,
}

#[derive(Clone)]
struct Kept {
    connection: Connection,
    waits: Waits,
    store: Vec<u8>,
    queue: Vec<u8>,
}

/// What is lent to a call.
struct Lent<'a> {
    connection: &'a mut Connection,
    waits: &'a mut Waits,
    store: &'a mut [u8],
    queue: &'a mut [u8],
}

impl Default for Console {
    fn default() -> Self {
        let new = Kept {
            connection: Connection::closed(),
            waits: Waits::default(),
            store: vec![0; WHOLE_STORE],
            queue: vec![0; WHOLE_QUEUE],
        };
        Console {
            connection: new.connection.clone(),
            waits: new.waits.clone(),
            store: new.store.clone(),
            lent: STORE,
            queue: new.queue.clone(),
            lent_queue: QUEUE,
            event: None,
            reader: Reader::new(),
            before: new,
        }
    }
}

impl Console {
    /// The answer to a line, both without their newline.
    pub fn answer(&mut self, line: &[u8]) -> String {
        if line.len() > LONGEST_LINE {
            return "long".into();
        }
        std::str::from_utf8(line)
            .ok()
            .and_then(|text| self.command(&text.split(' ').collect::<Vec<_>>()))
            .unwrap_or_else(|| "what".into())
    }

    /// None for words that are no command. Words are taken apart before anything is done.
    fn command(&mut self, words: &[&str]) -> Option<String> {
        Some(match *words {
            ["start"] => self.start(),
            ["lend", n] => {
                self.lent = number(n, WHOLE_STORE as u64)? as usize;
                "ok".into()
            }
            ["step", piece] => self.told(&bytes(piece)?, Waits::step),
            ["next", piece] => self.told(&bytes(piece)?, Waits::next_event),
            ["feed", n, all] => self.feed(piece_size(n)?, &bytes(all)?),
            ["value", r, name, fallback] => self.value(id(r)?, &bytes(name)?, &bytes(fallback)?),
            ["pair", r, k] => self.pair(id(r)?, number(k, u64::MAX)?),
            ["walk", r] => self.walk(id(r)?),
            ["say", r, stream, data, size] => {
                let (r, output, data) = (id(r)?, output(stream)?, bytes(data)?);
                let mut buffer = vec![FILL; room(size)?];
                let wrote = self.held(|lent| {
                    lent.waits
                        .say(lent.connection, r, output, &data, &mut buffer)
                });
                wrote_text(wrote, &buffer, "")
            }
            ["end", r, stream, size] => {
                let (r, output) = (id(r)?, output(stream)?);
                let mut buffer = vec![FILL; room(size)?];
                let wrote =
                    self.held(|lent| lent.waits.end(lent.connection, r, output, &mut buffer));
                wrote_text(wrote, &buffer, "")
            }
            ["owed", size] => {
                let mut buffer = vec![FILL; room(size)?];
                let wrote = reply(self.event.as_ref(), &mut buffer);
                wrote_text(wrote.map_err(refused), &buffer, "")
            }
            ["put", name, value, size] => {
                let (name, value) = (bytes(name)?, bytes(value)?);
                let mut buffer = vec![FILL; room(size)?];
                let wrote = write_pair(&mut buffer, &name, &value);
                wrote_text(wrote.map_err(refused), &buffer, "")
            }
            ["finish", r, status, size] => {
                let status = number(status, u32::MAX.into())? as u32;
                self.finish(id(r)?, status, room(size)?)
            }
            ["active"] => match self.waits.active(&self.connection) {
                Ok(n) => format!("active {n}"),
                Err(refusal) => refused(refusal),
            },
            ["area", r] => self.area(id(r)?),
            ["counts", r] => self.counts(id(r)?),
            ["store"] => self.places(),
            ["poke", ref field @ ..] => {
                self.poke(field)?;
                "ok".into()
            }
            ["correct", ..] => return correction::correction_command(words),
            ["reading" | "read" | "body", ..] => return self.reading_command(words),
            _ => return self.queue_command(words),
        })
    }

    fn start(&mut self) -> String {
        self.event = None;
        match self
            .waits
            .start(&mut self.connection, &mut self.store[..self.lent])
        {
            Ok(()) => "open".into(),
            Err(refusal) => refused(refusal),
        }
    }

    /// Makes a call. Where it is refused, the answer says whether anything changed that it must not change.
    fn held<T>(&mut self, call: impl FnOnce(Lent) -> Result<T, Refusal>) -> Result<T, String> {
        self.before.connection.clone_from(&self.connection);
        self.before.waits.clone_from(&self.waits);
        self.before.store.copy_from_slice(&self.store);
        self.before.queue.copy_from_slice(&self.queue);
        let lent = Lent {
            connection: &mut self.connection,
            waits: &mut self.waits,
            store: &mut self.store[..self.lent],
            queue: &mut self.queue[..self.lent_queue],
        };
        call(lent).map_err(|refusal| {
            let before = &self.before;
            let same = before.connection == self.connection
                && before.waits == self.waits
                && before.store == self.store
                && before.queue == self.queue;
            refused(refusal) + if same { "" } else { " changed" }
        })
    }

    /// A step or a `next_event`, and what it tells.
    fn told(
        &mut self,
        piece: &[u8],
        call: impl FnOnce(&mut Waits, &mut Connection, &mut [u8], &[u8]) -> Result<Step, Refusal>,
    ) -> String {
        match self.held(|lent| call(lent.waits, lent.connection, lent.store, piece)) {
            Err(text) => text,
            Ok(Step { used, event }) => {
                self.event = event;
                match &event {
                    None => format!("used {used}"),
                    Some(event) => {
                        format!("used {used} {}", text::event_text(event, &piece[..used]))
                    }
                }
            }
        }
    }

    fn value(&self, id: u16, name: &[u8], fallback: &[u8]) -> String {
        let store = &self.store[..self.lent];
        let value = self
            .waits
            .value(&self.connection, store, id, name, fallback);
        let value = hex(value);
        match self.waits.value_source(&self.connection, store, id, name) {
            Ok(Source::Store) => format!("store {value}"),
            Ok(Source::Fallback) => format!("fallback {value}"),
            Err(refusal) => format!("{} {value}", refused(refusal)),
        }
    }

    fn pair(&self, id: u16, k: u64) -> String {
        let store = &self.store[..self.lent];
        match self.waits.pair_at(&self.connection, store, id, k) {
            Ok(pair) => format!("pair {}", numbers(pair).map(|n| n.to_string()).join(" ")),
            Err(refusal) => refused(refusal),
        }
    }

    fn walk(&self, id: u16) -> String {
        let store = &self.store[..self.lent];
        let mut walk = match self.waits.walk(&self.connection, store, id) {
            Ok(walk) => walk,
            Err(refusal) => return refused(refusal),
        };
        let mut text = format!("walk {}", walk.list().len());
        loop {
            let pair = match walk.read_on() {
                Reading::Pair(pair) => numbers(pair).map(|n| n.to_string()).join(","),
                Reading::End => return format!("{text} end {}", walk.place()),
                Reading::Malformed { place } => return format!("{text} malformed at {place}"),
            };
            write!(text, " {pair}").expect("a string takes all");
        }
    }

    fn finish(&mut self, id: u16, status: u32, room: usize) -> String {
        let mut buffer = vec![FILL; room];
        let finished = self.held(|lent| {
            lent.waits
                .finish(lent.connection, lent.store, id, status, &mut buffer)
        });
        match finished {
            Ok(finished) => {
                let end = if finished.closed { " closed" } else { " open" };
                wrote_text(Ok(finished.wrote), &buffer, end)
            }
            Err(text) => wrote_text(Err(text), &buffer, ""),
        }
    }

    fn area(&self, id: u16) -> String {
        match self.connection.find(id) {
            None => "none".into(),
            Some(slot) => {
                let length = usize::from(self.connection.slots[slot].length).min(AREA);
                format!("area {}", hex(&self.store[area(slot)][..length]))
            }
        }
    }

    fn counts(&self, id: u16) -> String {
        match self.connection.find(id) {
            None => "none".into(),
            Some(slot) => {
                let request = &self.connection.slots[slot];
                format!("counts {} {}", request.stdin_shown, request.data_shown)
            }
        }
    }

    /// How many bytes of the store are not zero, and where the first and the last of them lie.
    fn places(&self) -> String {
        let places = || (0..WHOLE_STORE).filter(|&place| self.store[place] != 0);
        match (places().next(), places().next_back()) {
            (Some(first), Some(last)) => format!("store {} {first} {last}", places().count()),
            _ => "store 0".into(),
        }
    }
}

fn output(word: &str) -> Option<Output> {
    match word {
        "stdout" => Some(Output::Stdout),
        "stderr" => Some(Output::Stderr),
        _ => None,
    }
}

/// The size of the pieces of a `feed`.
fn piece_size(word: &str) -> Option<usize> {
    number(word, 65_536).map(|n| n as usize).filter(|&n| n > 0)
}

fn refused(refusal: Refusal) -> String {
    format!("refused {}", refusal as u8)
}

fn numbers(pair: Pair) -> [usize; 4] {
    [
        pair.name_at,
        pair.name_length,
        pair.value_at,
        pair.value_length,
    ]
}

/// What a writer answered, and whether it left the bytes behind alone.
fn wrote_text(wrote: Result<usize, String>, buffer: &[u8], end: &str) -> String {
    let (text, rest) = match wrote {
        Ok(n) => (
            format!("wrote {n} {}{end}", hex(&buffer[..n])),
            &buffer[n..],
        ),
        Err(text) => (text, buffer),
    };
    if rest.iter().any(|&byte| byte != FILL) {
        text + " touched"
    } else {
        text
    }
}

#[cfg(test)]
mod tests {
    use super::*;

    #[test]
    fn a_refused_call_that_changed_something() {
        let changes: [fn(Lent); 9] = [
            |lent| lent.connection.slots[15].err_used = true,
            |lent| lent.connection.slots[15].stdin_shown = 1,
            |lent| lent.connection.slots[0].data_shown = u32::MAX,
            |lent| lent.connection.query[511] = 1,
            |lent| lent.connection.body[7] = 1,
            |lent| lent.store[STORE - 1] = 1,
            |lent| lent.waits.numbers[53] = 1,
            |lent| lent.waits.marks[QUEUE - 1] = 1,
            |lent| lent.queue[QUEUE - 1] = 1,
        ];
        for change in changes {
            let mut console = Console::default();
            let refused = |console: &mut Console, change: fn(Lent)| {
                console.held(|lent| {
                    change(lent);
                    Err::<(), _>(Refusal::NoRoom)
                })
            };
            assert_eq!(
                refused(&mut console, change),
                Err("refused 6 changed".into())
            );
            // The same once more changes nothing.
            assert_eq!(refused(&mut console, change), Err("refused 6".into()));
        }
        let text = wrote_text(Err("refused 6 changed".into()), &[FILL, 0], "");
        assert_eq!(text, "refused 6 changed touched");
    }
}
