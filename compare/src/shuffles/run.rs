//! One shuffle of the requests' records and calls, as a script for the console.

use crate::console::words::hex;
use crate::console::Console;
use crate::random::Random;
use crate::scripts::own::{Item, Own};
use crate::scripts::Script;
use std::collections::BTreeMap;

/// Whose a line is, and so whose its answer.
#[derive(Clone, Copy, PartialEq, Eq)]
pub enum Whose {
    Start,
    /// It feeds bytes; its events say whose they are.
    Bytes,
    /// A call of this request.
    Of(u16),
    /// What is left at the end, of all requests together.
    All,
    /// A call for nobody, whose answer may differ from run to run.
    Nobody,
}

pub struct Run {
    pub script: Script,
    /// For each line of the script.
    pub whose: Vec<Whose>,
    /// For each request, the slots that its openings take by the rules. No answer shows them.
    pub slots: BTreeMap<u16, Vec<usize>>,
    /// Openings that take a slot which another request had.
    pub taken_again: usize,
    /// Calls that stand inside a record of another request.
    pub inside_others: usize,
    /// Calls behind a piece that had more bytes than were used.
    pub lent_more: usize,
}

/// Who comes next.
#[derive(Clone, Copy)]
enum Order {
    Any,
    /// The same request again, mostly.
    Bursts,
    /// One request after the other, so that mostly few are active at once.
    Whole,
    /// Each in its turn, so that many are active at once.
    Turns,
}

/// How bytes are cut.
#[derive(Clone, Copy)]
enum Cut {
    Single,
    Small,
    Headers,
    Large,
    Any,
}

/// The most bytes of a piece for `step` and `next`, which often leave most of it to be fed again.
const PIECE: usize = 600;
/// The most bytes of a `feed`: far fewer than a line can have.
const FED: usize = 20_000;

struct Shuffle<'a> {
    random: &'a mut Random,
    /// The twin, which says how many bytes a piece uses.
    console: Console,
    run: Run,
    /// What is left of each request.
    left: Vec<(u16, &'a [Item])>,
    order: Order,
    last: usize,
    cut: Cut,
    /// Of how many pieces one goes by `feed`.
    feeding: u64,
    /// Of how many records one has calls of others inside it.
    chatter: u64,
    /// Bytes that come before the next call.
    waiting: Vec<u8>,
    /// The last request that had each slot.
    had: BTreeMap<usize, u16>,
}

/// The requests shuffled, and then the lines that see what is left.
pub fn shuffled(random: &mut Random, requests: &[Own], tail: &[(Whose, String)]) -> Run {
    let mut left: Vec<_> = requests
        .iter()
        .map(|own| (own.id, &own.items[..]))
        .collect();
    for i in 0..left.len() {
        let other = random.within(i, left.len() - 1);
        left.swap(i, other);
    }
    let order = random.pick(&[Order::Any, Order::Bursts, Order::Whole, Order::Turns]);
    let cut = random.pick(&[Cut::Single, Cut::Small, Cut::Headers, Cut::Large, Cut::Any]);
    let feeding = random.pick(&[1, 2, 2, 8]);
    let chatter = random.pick(&[1, 2, 4]);
    let mut shuffle = Shuffle {
        random,
        console: Console::default(),
        run: Run {
            script: Script::default(),
            whose: Vec::new(),
            slots: BTreeMap::new(),
            taken_again: 0,
            inside_others: 0,
            lent_more: 0,
        },
        left,
        order,
        last: 0,
        cut,
        feeding,
        chatter,
        waiting: Vec::new(),
        had: BTreeMap::new(),
    };
    shuffle.line(Whose::Start, "start");
    while let Some(i) = shuffle.next() {
        match shuffle.take(i) {
            (id, Item::Call(line)) => shuffle.line(Whose::Of(id), line),
            (id, Item::Record { bytes, calls }) => shuffle.record(id, bytes, calls),
        }
        if shuffle.random.one_in(12) {
            shuffle.line(Whose::Nobody, "active");
        }
    }
    for (whose, line) in tail {
        shuffle.line(*whose, line);
    }
    shuffle.run
}

impl<'a> Shuffle<'a> {
    fn next(&mut self) -> Option<usize> {
        let left: Vec<usize> = (0..self.left.len())
            .filter(|&i| !self.left[i].1.is_empty())
            .collect();
        let &first = left.first()?;
        let stays = match self.order {
            Order::Any | Order::Turns => false,
            Order::Bursts => !self.random.one_in(5),
            Order::Whole => true,
        };
        if !(stays && left.contains(&self.last)) {
            self.last = match self.order {
                Order::Turns => left.into_iter().find(|&i| i > self.last).unwrap_or(first),
                _ => self.random.pick(&left),
            };
        }
        Some(self.last)
    }

    fn take(&mut self, i: usize) -> (u16, &'a Item) {
        let (id, items) = self.left[i];
        self.left[i].1 = &items[1..];
        (id, &items[0])
    }

    /// A line behind the bytes that come before it.
    fn line(&mut self, whose: Whose, line: &str) {
        self.send_waiting();
        self.add(whose, line.into());
    }

    fn add(&mut self, whose: Whose, line: String) {
        let answer = self.console.answer(line.as_bytes());
        self.run.script.lines.push(line.into_bytes());
        self.run.script.answers.push(answer);
        self.run.whose.push(whose);
    }

    /// A record with its own calls after the same bytes as in every run, and with calls of others anywhere.
    fn record(&mut self, id: u16, bytes: &[u8], calls: &'a [(usize, String)]) {
        let mut stops: Vec<(usize, Option<&str>)> = calls
            .iter()
            .map(|(at, line)| (*at, Some(line.as_str())))
            .collect();
        if self.random.one_in(self.chatter) {
            for _ in 0..self.random.within(1, 3) {
                stops.push((self.random.within(1, bytes.len() - 1), None));
            }
        }
        stops.sort_by_key(|&(at, _)| at);
        let mut from = 0;
        for (at, line) in stops {
            self.waiting.extend(&bytes[from..at]);
            from = at;
            match line {
                Some(line) => self.line(Whose::Of(id), line),
                None => self.call_of_another(id),
            }
        }
        self.waiting.extend(&bytes[from..]);
    }

    /// The next call of a request that has one next.
    fn call_of_another(&mut self, id: u16) {
        let ready: Vec<usize> = (0..self.left.len())
            .filter(|&i| self.left[i].0 != id)
            .filter(|&i| matches!(self.left[i].1.first(), Some(Item::Call(_))))
            .collect();
        if self.random.one_in(8) {
            self.line(Whose::Nobody, "active");
        }
        if ready.is_empty() {
            return;
        }
        let i = self.random.pick(&ready);
        if let (other, Item::Call(line)) = self.take(i) {
            self.line(Whose::Of(other), line);
            self.run.inside_others += 1;
        }
    }

    /// The bytes that came in since the last call, in pieces. What a piece did not use is fed again first.
    fn send_waiting(&mut self) {
        let bytes = std::mem::take(&mut self.waiting);
        let mut from = 0;
        while from < bytes.len() {
            let rest = &bytes[from..];
            let line = if self.random.one_in(self.feeding) {
                let piece = &rest[..self.fed_length(rest.len())];
                format!("feed {} {}", self.size(piece.len()), hex(piece))
            } else {
                let piece = &rest[..self.piece_length(rest.len())];
                let call = self.random.pick(&["step", "next"]);
                if piece.len() == rest.len() && self.random.one_in(4) {
                    self.with_more(call, piece)
                } else {
                    format!("{call} {}", hex(piece))
                }
            };
            self.add(Whose::Bytes, line);
            let answer = self.run.script.answers.last().map_or("", String::as_str);
            from += used(answer).expect("no record closes the connection");
            self.note_slots();
        }
    }

    /// The last piece before a call. Where the twin does not use them, other bytes are lent behind it: bytes that are
    /// not used must not be looked at, so they may be any.
    fn with_more(&mut self, call: &str, piece: &[u8]) -> String {
        let n = self.random.within(1, 24);
        let more = [piece, &self.random.bytes(n)].concat();
        let longer = format!("{call} {}", hex(&more));
        if used(&self.console.clone().answer(longer.as_bytes())) == Some(piece.len()) {
            self.run.lent_more += 1;
            return longer;
        }
        format!("{call} {}", hex(piece))
    }

    fn fed_length(&mut self, most: usize) -> usize {
        let n = match self.random.below(3) {
            0 => self.random.within(1, most),
            1 => self.random.within(1, 40),
            _ => most,
        };
        n.min(most).min(FED)
    }

    /// The size of the pieces of a `feed`.
    fn size(&mut self, fed: usize) -> usize {
        match self.random.below(6) {
            // Many bytes go in few pieces, so that they don't take up the time.
            _ if fed > 200 && !self.random.one_in(16) => self.random.within(fed / 8, fed),
            0 => 1,
            1 => 8,
            2 => 65_536,
            3 => fed,
            _ => self.random.within(1, 24),
        }
    }

    fn piece_length(&mut self, most: usize) -> usize {
        let n = match self.cut {
            // Long contents take few pieces, so that they don't make up the script.
            _ if most > 80 && !self.random.one_in(8) => self.random.within(40, PIECE),
            Cut::Single if most > 24 => self.random.within(8, 60),
            Cut::Single => 1,
            Cut::Small => self.random.within(1, 24),
            Cut::Headers => self.random.pick(&[7, 8, 8, 9, 16]),
            Cut::Large => PIECE,
            Cut::Any => self.random.pick(&[1, 3, 8, 20, 60, PIECE]),
        };
        n.min(most)
    }

    /// Which slots the openings of the last line took. Between an opening and the end of its line nothing is finished.
    fn note_slots(&mut self) {
        let answer = self.run.script.answers.last().map_or("", String::as_str);
        for event in events(answer) {
            let Some(id) = event.strip_prefix("open ").and_then(second_word) else {
                continue;
            };
            let Some(slot) = self.console.connection.find(id) else {
                continue;
            };
            self.run.slots.entry(id).or_default().push(slot);
            let before = self.had.insert(slot, id);
            self.run.taken_again += usize::from(before.is_some_and(|before| before != id));
        }
    }
}

/// The id that the rest of an event begins with.
fn second_word(rest: &str) -> Option<u16> {
    rest.split(' ').next()?.parse().ok()
}

/// What the answer to a `step`, a `next` or a `feed` told.
pub fn events(answer: &str) -> impl Iterator<Item = &str> {
    answer.split("; ").filter_map(|part| {
        match part.strip_prefix("used ") {
            // Behind the number stands the event of a `step` or a `next`; a `feed` has told its events before.
            Some(rest) => rest.split_once(' ').map(|(_, event)| event),
            None => Some(part),
        }
    })
}

/// How many bytes it used.
pub fn used(answer: &str) -> Option<usize> {
    let last = answer.rsplit("; ").next()?.strip_prefix("used ")?;
    last.split(' ').next()?.parse().ok()
}
