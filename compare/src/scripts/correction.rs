//! Lines of ice correction: cards in hex, and words that are not to the letter.

use super::cards::{any_correction, cards, good};
use super::Draft;
use crate::console::words::hex;
use crate::correction::{Card, Curve};
use crate::random::Random;

fn card_bytes(card: &Card) -> Vec<u8> {
    match card.curve {
        Curve::Thawed { offset } => [&[0], &offset.to_be_bytes()[..]].concat(),
        Curve::Frozen { slope, offset } => {
            [&[1], &slope.to_be_bytes()[..], &offset.to_be_bytes()].concat()
        }
    }
}

/// Almost a card: another first byte, or another number of bytes.
fn odd_card(random: &mut Random, mut bytes: Vec<u8>) -> Vec<u8> {
    match random.below(6) {
        0 => bytes[0] = random.pick(&[2, 3, 0x10, 0x80, 0xff, b'0', b'1']),
        // The kind with the length of the other.
        1 => bytes[0] ^= 1,
        2 => bytes.push(0),
        3 => {
            bytes.pop();
        }
        4 => bytes.truncate(random.pick(&[0, 1, 2, 8, 9])),
        _ => {
            let n = random.pick(&[1, 2, 8, 16]);
            bytes.extend(random.bytes(n));
        }
    }
    bytes
}

impl Draft {
    pub(super) fn corrections(&mut self) {
        for _ in 0..self.random.within(40, 120) {
            match self.random.below(16) {
                0 => self.at_every_edge(),
                1 => self.any_call(),
                2 if self.random.one_in(2) => self.beside_an_event(),
                _ => self.correct_call(),
            }
        }
    }

    /// One line, in one of ten with words that are odd.
    pub(super) fn correct_call(&mut self) {
        let (calibration, tenths, raw) = any_correction(&mut self.random);
        let mut cards = [calibration.thawed, calibration.frozen].map(|card| card_bytes(&card));
        let (mut tenths, mut raw) = (tenths.to_string(), raw.to_string());
        if self.random.one_in(10) {
            match self.random.below(4) {
                0 => tenths = self.tenths_word(tenths.parse().unwrap_or(0)),
                1 => raw = self.raw_word(&raw),
                _ => {
                    let which = self.random.index(2);
                    cards[which] = odd_card(&mut self.random, cards[which].clone());
                }
            }
        }
        let [thawed, frozen] = cards.map(|card| hex(&card));
        self.line(format!("correct {thawed} {frozen} {tenths} {raw}"));
    }

    /// The same cards at each limit of the temperature and of the raw count, and around zero.
    fn at_every_edge(&mut self) {
        let (floats, ..) = good(&mut self.random);
        let cards = cards(&mut self.random, floats, false);
        let [thawed, frozen] = [cards.thawed, cards.frozen].map(|card| hex(&card_bytes(&card)));
        for tenths in [-601, -600, -1, 0, 1, 400, 401] {
            let raw = self.random.pick(&[0, 1, 65_534, 65_535, 65_535, 65_536]);
            self.line(format!("correct {thawed} {frozen} {tenths} {raw}"));
        }
    }

    /// An event that owes a reply still does behind a correction.
    fn beside_an_event(&mut self) {
        self.start();
        let event = self.random.pick(&["012a000000000000", "0109000000000000"]);
        self.line(format!("next {event}"));
        self.correct_call();
        self.line("owed 64");
    }

    /// Zeros before the digits count for nothing; other numbers are too large for their place, or none.
    fn raw_word(&mut self, raw: &str) -> String {
        match self.random.below(6) {
            0 => "4294967296".into(),
            1 => "18446744073709551615".into(),
            2 => format!("-{raw}"),
            3 => format!("+{raw}"),
            _ => {
                let width = self.random.pick(&[5, 6, 20, 21]);
                format!("{raw:0>width$}")
            }
        }
    }
}
