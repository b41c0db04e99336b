//! Bodies of readings, whole and damaged, cut anywhere between `read` commands; readings that are written; and other
//! calls in between, which must not touch the reader.

use super::Draft;
use crate::console::words::hex;
use crate::random::Random;
use crate::readings::{write, Reading, COLDEST, READING, WARMEST};

/// Numbers at the edges of one to five bytes.
const EDGES: [u32; 12] = [
    0,
    1,
    0x7f,
    0x80,
    0x3fff,
    0x4000,
    0x1f_ffff,
    0x20_0000,
    0xfff_ffff,
    0x1000_0000,
    u32::MAX - 1,
    u32::MAX,
];

/// Temperatures at the limits and one past them, around zero, and the one of the worked case.
const TENTHS: [i32; 10] = [-600, -601, -599, 400, 401, 399, 0, -1, 1, -184];

/// The same as they are sent, so that a body can have those out of range; and 1200 and 801, of the other sign.
const SENT: [u32; 12] = [1199, 1201, 1197, 800, 802, 798, 0, 1, 2, 367, 1200, 801];

/// Temperatures at the limits of a command, and words that are almost one.
const WORDS: [&str; 16] = [
    "2147483647",
    "2147483648",
    "-2147483648",
    "-2147483649",
    "4294967295",
    "18446744073709551432",
    "-18446744073709551615",
    "00000000000000000184",
    "000000000000000000184",
    "-00000000000000000184",
    "-000000000000000000184",
    "-",
    "--1",
    "+1",
    "- 1",
    "-0",
];

/// Last bytes of a number of five.
const FIFTHS: [u8; 10] = [0x0f, 0x10, 0x80, 0x00, 0x01, 0x1f, 0x7f, 0x8f, 0x90, 0xff];

fn any_number(random: &mut Random) -> u32 {
    match random.below(4) {
        0 => random.pick(&EDGES),
        1 => random.draw() as u32 >> random.below(32),
        _ => random.below(300) as u32,
    }
}

/// In range.
fn good_tenths(random: &mut Random) -> i32 {
    match random.pick(&TENTHS) {
        tenths if random.one_in(3) => tenths.clamp(COLDEST, WARMEST),
        _ => random.within(0, 1_000) as i32 + COLDEST,
    }
}

fn any_tenths(random: &mut Random) -> i32 {
    match random.below(8) {
        0 | 1 => random.pick(&TENTHS),
        2 => random.pick(&[i32::MIN, i32::MAX, 600, -400, 65_536, -65_536]),
        3 => random.draw() as i32 >> random.below(32),
        _ => good_tenths(random),
    }
}

fn good_reading(random: &mut Random) -> Reading {
    Reading {
        log: any_number(random),
        tenths: good_tenths(random),
        raw: any_number(random),
    }
}

/// As the twin writes it; none where it is refused.
fn written(reading: Reading) -> Option<Vec<u8>> {
    let mut bytes = vec![0; READING];
    let length = write(reading, &mut bytes).ok()?;
    bytes.truncate(length);
    Some(bytes)
}

/// The shortest form, put together here and not by the writer.
fn by_hand(mut number: u32) -> Vec<u8> {
    let mut bytes = Vec::new();
    while number >= 128 {
        bytes.push(number as u8 | 0x80);
        number /= 128;
    }
    bytes.push(number as u8);
    bytes
}

/// So many bytes that another follows, and a last one.
fn groups(random: &mut Random, before: usize, last: u8) -> Vec<u8> {
    let fill = random.pick(&[0x80, 0xff, 0x81]);
    let plain = random.one_in(2);
    let mut bytes: Vec<u8> = (0..before)
        .map(|_| if plain { fill } else { random.byte() | 0x80 })
        .collect();
    bytes.push(last);
    bytes
}

/// Mostly no number: too large, too long, or not the shortest form.
fn odd_number(random: &mut Random) -> Vec<u8> {
    match random.below(8) {
        0..=3 => {
            let fifth = random.pick(&FIFTHS);
            groups(random, 4, fifth)
        }
        4 | 5 => {
            let before = random.within(1, 4);
            groups(random, before, 0)
        }
        6 => {
            let before = random.within(1, 9);
            let last = random.byte();
            groups(random, before, last)
        }
        _ => by_hand(any_number(random)),
    }
}

/// Three numbers by hand, of which one is mostly odd or a temperature at the edge.
fn odd_reading(random: &mut Random) -> Vec<u8> {
    let sent = match random.below(4) {
        0 | 1 => random.pick(&SENT),
        _ => any_number(random),
    };
    let mut numbers = [
        by_hand(any_number(random)),
        by_hand(sent),
        by_hand(any_number(random)),
    ];
    if random.one_in(2) {
        numbers[random.index(3)] = odd_number(random);
    }
    numbers.concat()
}

/// Good readings, and then perhaps one that is odd, with others behind it that must not be given.
pub fn any_body(random: &mut Random, most: usize) -> Vec<u8> {
    let good = |random: &mut Random| {
        let reading = good_reading(random);
        written(reading).unwrap_or_default()
    };
    let mut body = Vec::new();
    for _ in 0..random.within(0, most) {
        body.extend(good(random));
    }
    if random.one_in(2) {
        body.extend(odd_reading(random));
        for _ in 0..random.index(most + 1) {
            body.extend(good(random));
        }
    }
    if !body.is_empty() && random.one_in(8) {
        let at = random.index(body.len());
        body[at] = random.pick(&[0x00, 0x0f, 0x10, 0x7f, 0x80, 0xff]);
    }
    if random.one_in(3) {
        body.truncate(random.within(0, body.len()));
    }
    body
}

impl Draft {
    pub(super) fn readings(&mut self) {
        for _ in 0..self.random.within(10, 30) {
            match self.random.below(10) {
                0 => self.cut_everywhere(),
                1 => self.read_back(),
                2 => {
                    for _ in 0..self.random.within(1, 6) {
                        self.write_reading();
                    }
                }
                _ => {
                    let body = any_body(&mut self.random, 5);
                    self.read_in_pieces(&body);
                    self.end_of_body();
                }
            }
        }
        self.line("body new");
    }

    /// One line of them, among other calls.
    pub(super) fn reading_call(&mut self) {
        match self.random.below(8) {
            0..=2 => self.write_reading(),
            3 => {
                self.line("body end");
            }
            4 => {
                self.line("body new");
            }
            // A body that stays refused shows nothing else.
            5 if self.refused() => {
                self.line("body new");
            }
            _ => {
                let body = any_body(&mut self.random, 1);
                self.read_line(&body);
            }
        }
    }

    fn refused(&self) -> bool {
        self.console.reader.refusal.is_some()
    }

    fn read_line(&mut self, bytes: &[u8]) {
        self.line(format!("read {}", hex(bytes)));
    }

    /// A short body once for each place at which it can be cut in two, also before its first and behind its last byte.
    fn cut_everywhere(&mut self) {
        let body = any_body(&mut self.random, 1);
        for at in 0..=body.len() {
            self.line("body new");
            self.read_line(&body[..at]);
            self.read_line(&body[at..]);
            self.line("body end");
        }
    }

    /// Pieces of one size or of any, with empty ones and other calls in between. What follows a refusal is seldom read.
    fn read_in_pieces(&mut self, body: &[u8]) {
        let size = self.random.pick(&[0, 0, 1, 2, 3, 5, 8, 64]);
        let mut rest = body;
        while !rest.is_empty() && !(self.refused() && self.random.one_in(2)) {
            let n = match size {
                0 => self.random.within(1, 12),
                _ => size,
            };
            let (piece, behind) = rest.split_at(n.min(rest.len()));
            self.read_line(piece);
            rest = behind;
            match self.random.below(24) {
                0..=2 => self.read_line(&[]),
                3 | 4 => self.any_call(),
                5 => self.start(),
                6 if self.random.one_in(4) => {
                    self.line("body new");
                }
                _ => {}
            }
        }
    }

    /// Mostly the end, at which a refusal stays, and a new body.
    fn end_of_body(&mut self) {
        if !self.random.one_in(8) {
            self.line("body end");
        }
        if self.refused() {
            for _ in 0..self.random.index(3) {
                match self.random.below(4) {
                    0 => self.read_line(&[]),
                    1 => self.any_call(),
                    2 => {
                        self.line("body end");
                    }
                    _ => {
                        let more = any_body(&mut self.random, 2);
                        self.read_line(&more);
                    }
                }
            }
        }
        if self.refused() || self.random.one_in(6) {
            self.line("body new");
        }
    }

    /// Readings written by the console, and what it wrote read in pieces.
    fn read_back(&mut self) {
        let mut body = Vec::new();
        for _ in 0..self.random.within(1, 5) {
            let reading = good_reading(&mut self.random);
            body.extend(written(reading).unwrap_or_default());
            let Reading { log, tenths, raw } = reading;
            self.line(format!("reading {log} {tenths} {raw} {READING}"));
        }
        self.line("body new");
        self.read_in_pieces(&body);
        self.end_of_body();
    }

    /// Any reading, in a room at the edge of what it needs. A temperature is refused whatever the room is.
    fn write_reading(&mut self) {
        let (log, raw) = (any_number(&mut self.random), any_number(&mut self.random));
        let tenths = any_tenths(&mut self.random);
        let length = written(Reading { log, tenths, raw }).map(|bytes| bytes.len());
        let needed = length.unwrap_or_else(|| self.random.within(0, READING));
        let room = self.room(needed);
        let word = self.tenths_word(tenths);
        self.line(format!("reading {log} {word} {raw} {room}"));
    }

    /// Zeros before the digits count for nothing, and neither does the sign of 0.
    pub(super) fn tenths_word(&mut self, tenths: i32) -> String {
        if self.random.one_in(4) {
            return self.random.pick(&WORDS).into();
        }
        let width = self.random.pick(&[0, 0, 0, 0, 0, 0, 5, 20]);
        let below = tenths < 0 || (tenths == 0 && self.random.one_in(4));
        let sign = if below { "-" } else { "" };
        format!("{sign}{:0width$}", tenths.unsigned_abs())
    }
}

#[cfg(test)]
mod tests {
    use super::*;
    use crate::readings::{Reader, ReadingResult};

    /// The bodies come to each end, and most have readings before it.
    #[test]
    fn bodies_of_every_kind() {
        let mut random = Random::new(1);
        let (mut readings, mut ends) = (0, [0; 5]);
        for _ in 0..2_000 {
            let body = any_body(&mut random, 5);
            let (mut reader, mut used) = (Reader::new(), 0);
            while used < body.len() {
                let (n, told) = reader.read(&body[used..]);
                used += n;
                match told {
                    ReadingResult::Nothing => {}
                    ReadingResult::Reading(_) => readings += 1,
                    ReadingResult::Refused(_) => break,
                }
            }
            ends[reader
                .end()
                .map_or_else(|fault| fault as usize - 30, |()| 0)] += 1;
        }
        assert!(readings > 3_000, "{readings}");
        assert!(ends.iter().all(|&n| n > 100), "{ends:?}");
    }
}
