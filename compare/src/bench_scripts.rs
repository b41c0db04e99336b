//! Random scripts for the bench, from a seed. The twin answers each line while the script is made, so that lines fit
//! the state they meet: most are commands that do something.
//!
//! What the rules leave open is kept away from: header bytes past those held, and bytes of a body past those gathered.
//! A script that pokes how many of them there are, or makes the content a body's or a result's, pokes these bytes, the
//! target and the content with it. The values are shown whole, so all of them count.

mod calls;
mod headers;
mod odd;
mod pokes;
mod replies;
mod row_nine;
mod states;

use crate::bench::Bench;
use crate::console::words::hex;
use crate::random::Random;
use crate::scripts::Script;
use crate::state::SLOTS;

/// How bytes are cut into pieces.
#[derive(Clone, Copy)]
enum Cut {
    Single,
    Headers,
    Whole,
    Any,
}

/// A script in the making.
struct Draft {
    random: Random,
    bench: Bench,
    script: Script,
    cut: Cut,
    /// Of how many pieces one goes by `feed` and not by `step`; 0 where none does.
    feeding: u64,
    /// Of how many pieces one is followed by a call.
    chatter: u64,
}

/// A script of about so many lines.
pub fn generate(seed: u64, lines: usize) -> Script {
    let mut draft = Draft::new(seed);
    // What the bench begins with is tried too.
    if draft.random.one_in(2) {
        draft.line("values");
        draft.every_call();
    }
    while draft.script.lines.len() < lines {
        match draft.random.below(100) {
            0..=23 => draft.exchange(false),
            24..=41 => draft.exchange(true),
            42..=57 => draft.headers(),
            58..=62 => draft.all_slots(),
            63..=71 => draft.any_calls(),
            72..=80 => draft.row_nine(),
            81..=91 => draft.poked_state(),
            _ => draft.odd_lines(),
        }
    }
    draft.script
}

impl Draft {
    fn new(seed: u64) -> Draft {
        Draft {
            random: Random::new(seed),
            bench: Bench::default(),
            script: Script::default(),
            cut: Cut::Any,
            feeding: 0,
            chatter: 4,
        }
    }

    fn line(&mut self, text: impl Into<Vec<u8>>) -> &str {
        let line = text.into();
        let answer = self.bench.answer(&line);
        self.script.lines.push(line);
        self.script.answers.push(answer);
        self.last()
    }

    fn last(&self) -> &str {
        self.script.answers.last().map_or("", String::as_str)
    }

    fn open(&self) -> bool {
        self.bench.server.open
    }

    fn open_ids(&self) -> Vec<u16> {
        let server = &self.bench.server;
        (0..SLOTS)
            .filter(|&slot| server.taken(slot))
            .map(|slot| server.slots[slot].id)
            .collect()
    }

    /// More ids than slots; some differ in one of their two bytes only.
    fn any_id(&mut self) -> u16 {
        const IDS: [u16; 24] = [
            1, 2, 3, 4, 5, 6, 7, 8, 9, 10, 11, 12, 13, 14, 15, 16, 17, 255, 256, 257, 258, 513,
            32_768, 65_535,
        ];
        self.random.pick(&IDS)
    }

    /// An id that is not open, and not 0.
    fn free_id(&mut self) -> u16 {
        let mut id = self.any_id();
        while self.bench.server.find(id).is_some() {
            id = self.any_id();
        }
        id
    }

    /// The id of an open request; any other where there is none.
    fn open_id(&mut self) -> u16 {
        let open = self.open_ids();
        if open.is_empty() {
            self.any_id()
        } else {
            self.random.pick(&open)
        }
    }

    /// Mostly the id of an open request.
    fn some_id(&mut self) -> u16 {
        match self.random.below(10) {
            0 => self.random.pick(&[0, 1, 65_535]),
            1 => self.any_id(),
            _ => self.open_id(),
        }
    }

    /// Feeds bytes in pieces, what a step did not use first in the next piece; calls in between. Answers whether the
    /// connection took them all.
    fn send(&mut self, mut bytes: &[u8]) -> bool {
        while !bytes.is_empty() {
            let n = self.piece_length(bytes.len());
            let used = if self.feeding > 0 && self.random.one_in(self.feeding) {
                self.feed_line(&bytes[..n])
            } else {
                self.step_line(&bytes[..n])
            };
            match used {
                Some(used) if self.open() => bytes = &bytes[used..],
                _ => return false,
            }
            if self.random.one_in(self.chatter) {
                self.any_call();
            }
        }
        true
    }

    /// Answers how many bytes the step used, none where it was refused.
    fn step_line(&mut self, piece: &[u8]) -> Option<usize> {
        let answer = self.line(format!("step {}", hex(piece)));
        let rest = answer.strip_prefix("used ")?;
        rest.split(' ').next()?.parse().ok()
    }

    /// A `feed` in pieces of any size. Answers how many bytes it used, none where it was refused.
    fn feed_line(&mut self, bytes: &[u8]) -> Option<usize> {
        let all = bytes.len().max(1);
        let size = match self.random.below(8) {
            // Many bytes go in few pieces, so that they don't take up the time.
            _ if bytes.len() > 200 && !self.random.one_in(16) => self.random.within(all / 8, all),
            0 => 1,
            1 => 8,
            2 => all,
            3 => 65_536,
            4 => self.random.within(1, all),
            _ => self.random.within(1, 24),
        };
        self.line(format!("feed {size} {}", hex(bytes)));
        let end = self.last().rsplit("; ").next();
        end.and_then(|end| end.strip_prefix("used "))
            .and_then(|n| n.parse().ok())
    }

    fn piece_length(&mut self, most: usize) -> usize {
        let n = match self.cut {
            // Long contents are cut into few pieces, so that they don't make up the script.
            _ if most > 80 && !self.random.one_in(8) => self.random.within(most / 2, most),
            Cut::Single if most < 24 => 1,
            Cut::Single => self.random.within(1, 60),
            Cut::Headers => self.random.pick(&[7, 8, 8, 9, 16]),
            Cut::Whole => most,
            Cut::Any => match self.random.below(8) {
                0 => 1,
                1 => 8,
                2 => self.random.within(1, most),
                3 => self.random.within(1, 20),
                _ => most,
            },
        };
        n.min(most)
    }

    fn choose_cut(&mut self) {
        self.cut = self.random.pick(&[
            Cut::Single,
            Cut::Headers,
            Cut::Whole,
            Cut::Any,
            Cut::Any,
            Cut::Any,
        ]);
        self.chatter = self.random.pick(&[1, 2, 3, 6]);
        self.feeding = self.random.pick(&[0, 1, 2, 8]);
    }
}
