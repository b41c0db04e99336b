//! Random scripts for the console, from a seed. The twin answers each line while the script is made, so that lines fit
//! the state they meet: most are commands that do something.
//!
//! What the rules leave open is kept away from: bytes of a body past those gathered. A script that pokes how many
//! bytes are gathered, or makes the content a body's, pokes the bytes, the target and the content with it. And bytes of
//! the queue, with their marks, past those that wait (`queue_pokes`).

mod bodies;
mod broken;
mod calls;
mod captures;
mod cards;
mod correction;
pub(crate) mod lists;
mod odd;
pub mod own;
mod pokes;
mod queue;
mod queue_ends;
mod queue_pokes;
mod readings;
pub(crate) mod records;
mod row_nine;
mod traffic;
pub mod turns;

use crate::console::words::hex;
use crate::console::Console;
use crate::correction::Calibration;
use crate::random::Random;
use crate::state::SLOTS;
pub use captures::capture;
use std::collections::BTreeMap;

/// Lines, and what the twin answers to each.
#[derive(Default)]
pub struct Script {
    pub lines: Vec<Vec<u8>>,
    pub answers: Vec<String>,
    /// How many states were put together by pokes and then tried.
    pub states: usize,
}

/// How bytes are cut into pieces.
#[derive(Clone, Copy)]
enum Cut {
    Single,
    Small,
    Headers,
    Whole,
    Any,
}

/// A script in the making.
struct Draft {
    random: Random,
    console: Console,
    script: Script,
    cut: Cut,
    /// Of how many pieces one goes by `feed` and not by `step` or `next`; 0 where none does.
    feeding: u64,
    /// Of how many pieces one is followed by a call.
    chatter: u64,
    /// Many ids are opened, past the number of slots.
    crowd: bool,
    /// What is still to be sent of the parameters of a request.
    lists: BTreeMap<u16, Vec<u8>>,
    /// No calls but those that feed; and the bytes that were fed.
    silent: bool,
    sent: Vec<u8>,
}

/// What a web server sends on one connection, whole or damaged, to its close or for a while.
pub fn stream(seed: u64) -> Vec<u8> {
    let mut draft = Draft::new(seed);
    draft.silent = true;
    draft.start();
    let damaged = draft.random.one_in(2);
    draft.traffic(damaged);
    draft.sent
}

/// A body of readings, whole or damaged.
pub fn body(seed: u64) -> Vec<u8> {
    readings::any_body(&mut Random::new(seed), 40)
}

/// Cards, a temperature and a raw count, to be corrected or refused.
pub fn correction(seed: u64) -> (Calibration, i32, u32) {
    cards::any_correction(&mut Random::new(seed))
}

/// A script of about so many lines.
pub fn generate(seed: u64, lines: usize) -> Script {
    let mut draft = Draft::new(seed);
    // What the console begins with is tried too.
    if draft.random.one_in(2) {
        draft.every_call();
    }
    while draft.script.lines.len() < lines {
        match draft.random.below(138) {
            0..=19 => draft.traffic(false),
            20..=31 => draft.bodies(),
            32..=49 => draft.traffic(true),
            50..=57 => draft.any_calls(),
            58..=60 => draft.whole_connection(),
            61..=75 => draft.row_nine(),
            76..=89 => draft.poked_state(),
            90..=97 => draft.readings(),
            98..=103 => draft.corrections(),
            104..=127 => draft.queued(),
            _ => draft.odd_lines(),
        }
    }
    draft.script
}

impl Draft {
    fn new(seed: u64) -> Draft {
        Draft {
            random: Random::new(seed),
            console: Console::default(),
            script: Script::default(),
            cut: Cut::Any,
            feeding: 0,
            chatter: 4,
            crowd: false,
            lists: BTreeMap::new(),
            silent: false,
            sent: Vec::new(),
        }
    }

    fn line(&mut self, text: impl Into<Vec<u8>>) -> &str {
        let line = text.into();
        let answer = self.console.answer(&line);
        self.script.lines.push(line);
        self.script.answers.push(answer);
        self.last()
    }

    fn last(&self) -> &str {
        self.script.answers.last().map_or("", String::as_str)
    }

    fn start(&mut self) {
        self.lists.clear();
        self.line("start");
        if self.random.one_in(4) {
            self.line("owed 64");
        }
    }

    fn open(&self) -> bool {
        self.console.connection.open
    }

    fn active_ids(&self) -> Vec<u16> {
        let connection = &self.console.connection;
        (0..SLOTS)
            .filter(|&slot| connection.taken(slot))
            .map(|slot| connection.slots[slot].id)
            .collect()
    }

    /// More ids than slots; some differ in one of their two bytes only.
    fn any_id(&mut self) -> u16 {
        const IDS: [u16; 24] = [
            1, 2, 3, 4, 5, 6, 7, 8, 9, 10, 11, 12, 13, 14, 15, 16, 17, 255, 256, 257, 258, 513,
            32_768, 65_535,
        ];
        self.random.pick(&IDS)
    }

    /// Mostly the id of an active request.
    fn some_id(&mut self) -> u16 {
        let active = self.active_ids();
        match self.random.below(10) {
            0 => self.random.pick(&[0, 1, 65_535]),
            1 => self.any_id(),
            _ if active.is_empty() => self.any_id(),
            2 | 3 => self.random.pick(&active),
            _ => self.ready_id(&active),
        }
    }

    /// Of some tries, the first whose parameters have ended: more calls mean something to it.
    fn ready_id(&mut self, active: &[u16]) -> u16 {
        let mut id = 0;
        for _ in 0..4 {
            id = self.random.pick(active);
            let connection = &self.console.connection;
            if connection
                .find(id)
                .is_some_and(|slot| connection.slots[slot].params_ended())
            {
                break;
            }
        }
        id
    }

    /// Feeds bytes in pieces, what a call did not use first in the next piece; other calls in between. Answers whether
    /// the connection took them all.
    fn feed(&mut self, mut bytes: &[u8]) -> bool {
        self.sent.extend(bytes);
        while !bytes.is_empty() {
            let n = self.piece_length(bytes.len());
            let used = if self.feeding > 0 && self.random.one_in(self.feeding) {
                self.feed_line(&bytes[..n])
            } else {
                self.piece_line(&bytes[..n])
            };
            match used {
                Some(used) if self.open() => bytes = &bytes[used..],
                _ => return false,
            }
            if !self.silent && self.random.one_in(self.chatter) {
                self.any_call();
            }
        }
        true
    }

    /// A `step` or a `next`, one as often as the other. Answers how many bytes it used, none where it was refused.
    fn piece_line(&mut self, piece: &[u8]) -> Option<usize> {
        let call = self.random.pick(&["step", "next"]);
        let answer = self.line(format!("{call} {}", hex(piece)));
        let rest = answer.strip_prefix("used ")?;
        rest.split(' ').next()?.parse().ok()
    }

    /// A `feed` in pieces of any size. Answers how many bytes it used, none where it was refused.
    fn feed_line(&mut self, bytes: &[u8]) -> Option<usize> {
        let size = match self.random.below(8) {
            // Many bytes go in few pieces, so that they don't take up the time.
            _ if bytes.len() > 200 && !self.random.one_in(16) => {
                self.random.within(bytes.len() / 8, bytes.len())
            }
            0 => 1,
            1 => 8,
            2 => bytes.len().max(1),
            3 => 65_536,
            4 => self.random.within(1, bytes.len().max(1)),
            _ => self.random.within(1, 24),
        };
        self.line(format!("feed {size} {}", hex(bytes)));
        let end = self.last().rsplit("; ").next();
        end.and_then(|end| end.strip_prefix("used "))
            .and_then(|n| n.parse().ok())
    }

    fn piece_length(&mut self, most: usize) -> usize {
        let n = match self.cut {
            // Long contents are cut into few pieces, so that they don't make up the script.
            _ if most > 80 && !self.random.one_in(8) => self.random.within(most / 2, most),
            Cut::Single if most < 24 => 1,
            Cut::Single => self.random.within(8, 60),
            Cut::Small => self.random.within(3, 24),
            Cut::Headers => self.random.pick(&[7, 8, 8, 9, 16]),
            Cut::Whole => most,
            Cut::Any => match self.random.below(8) {
                0 => 1,
                1 => 8,
                2 => self.random.within(1, most),
                3 => self.random.within(1, 20),
                _ => most,
            },
        };
        n.min(most)
    }

    fn choose_cut(&mut self) {
        self.cut = self.random.pick(&[
            Cut::Single,
            Cut::Small,
            Cut::Headers,
            Cut::Whole,
            Cut::Any,
            Cut::Any,
            Cut::Any,
            Cut::Any,
        ]);
        self.chatter = self.random.pick(&[1, 2, 2, 3, 6]);
        self.crowd = self.random.one_in(6);
        if !self.silent {
            self.feeding = self.random.pick(&[0, 1, 2, 8]);
        }
    }
}
