//! Lists that are malformed at a place over 0: the pair that cannot be read comes behind good ones. PARAMS and queries
//! are sent like that, and a store is damaged so that a walk comes to such a pair.

use super::lists::{any_name, any_value, damaged_list, few_pairs, filled_list, repeating_list};
use super::records::{query, record};
use super::Draft;
use crate::console::words::hex;
use crate::pairs::{Pair, Pairs};
use crate::random::Random;
use crate::state::{area, AREA, QUERY, SLOTS};
use crate::wire::kind;

/// A malformed list of at most so many bytes: an area's or a query's. Mostly good pairs come first.
pub fn broken_list(random: &mut Random, most: usize) -> Vec<u8> {
    let bad = loop {
        let bad = bad_pair(random);
        // Good pairs that fill up need some room.
        if bad.len() + 310 < most {
            break bad;
        }
    };
    let mut list = match random.below(16) {
        0 => Vec::new(),
        // The last byte of all is the last that the area or a query has room for.
        1 => filled_list(random, most - bad.len()),
        2 => {
            let length = random.within(310, most - bad.len());
            filled_list(random, length)
        }
        // A name that comes twice before the malformed pair must not matter.
        3..=5 => repeating_list(random),
        _ => few_pairs(random),
    };
    while list.len() + bad.len() > most {
        list = few_pairs(random);
    }
    list.extend(bad);
    list
}

/// A pair whose bytes run out, at each of the places where they can.
fn bad_pair(random: &mut Random) -> Vec<u8> {
    let (name, value) = (any_name(random), any_value(random));
    let name_length = length(random, name.len());
    let value_length = length(random, value.len());
    match random.below(7) {
        0 => cut_length(random),
        // The list ends before the length of the value, or inside it.
        1 => name_length,
        2 => [name_length, cut_length(random)].concat(),
        3 | 4 => {
            let more = name.len() + lacking(random);
            [length(random, more), value_length, name].concat()
        }
        _ => {
            let more = value.len() + lacking(random);
            [name_length, length(random, more), name, value].concat()
        }
    }
}

/// A length in four bytes, also where one would do, or in its shorter form.
fn length(random: &mut Random, n: usize) -> Vec<u8> {
    if n < 128 && !random.one_in(4) {
        vec![n as u8]
    } else {
        (n as u32 | 0x8000_0000).to_be_bytes().to_vec()
    }
}

/// One to three bytes of a length that has four.
fn cut_length(random: &mut Random) -> Vec<u8> {
    let n = random.pick(&[0, 5, 127, 128, 200, 0x7fff_ffff]);
    let whole = (n as u32 | 0x8000_0000).to_be_bytes();
    whole[..random.within(1, 3)].to_vec()
}

/// How many bytes a name or a value lacks; with the most of them, two lengths pass 31 bits together.
fn lacking(random: &mut Random) -> usize {
    match random.below(8) {
        0..=3 => 1,
        4 | 5 => random.within(2, 40),
        6 => random.within(100, AREA),
        _ => 0x7fff_0000,
    }
}

impl Draft {
    /// A list that mostly ends malformed, cut into some records anywhere, and its end.
    pub(super) fn malformed_params(&mut self, id: u16) -> Vec<u8> {
        let list = match self.random.below(3) {
            0 => damaged_list(&mut self.random),
            _ => broken_list(&mut self.random, AREA),
        };
        let mut bytes = Vec::new();
        let mut rest = &list[..];
        while !rest.is_empty() {
            let n = match self.random.below(3) {
                0 => rest.len(),
                1 => self.random.within(1, rest.len().min(12)),
                _ => self.random.within(1, rest.len()),
            };
            bytes.extend(record(&mut self.random, kind::PARAMS, id, &rest[..n]));
            rest = &rest[n..];
        }
        bytes.extend(record(&mut self.random, kind::PARAMS, id, &[]));
        bytes
    }

    /// A query that mostly ends malformed.
    pub(super) fn malformed_query(&mut self) -> Vec<u8> {
        let mut content = match self.random.below(5) {
            0..=2 => query(&mut self.random),
            _ => broken_list(&mut self.random, QUERY),
        };
        if self.random.one_in(2) {
            content.extend(damaged_list(&mut self.random));
        }
        record(&mut self.random, kind::GET_VALUES, 0, &content)
    }

    /// Damages a pair of some list, mostly not its first, and reads on to it. Answers whether there is such a list.
    pub(super) fn poke_broken(&mut self) -> bool {
        let Some((slot, list)) = self.some_list() else {
            return false;
        };
        let pairs: Vec<Pair> = Pairs::new(&list).collect();
        let first = usize::from(pairs.len() > 1 && !self.random.one_in(8));
        let k = self.random.within(first, pairs.len() - 1);
        let from = if k == 0 { 0 } else { pairs[k - 1].end() };
        self.break_pair(slot, from, &pairs[k]);
        let request = self.console.connection.slots[slot];
        let id = request.id;
        if !request.params_ended() && !request.spent() && self.between_records() {
            let end = record(&mut self.random, kind::PARAMS, id, &[]);
            self.feed(&end);
            return true;
        }
        // A walk that begins anew comes to the same place.
        for _ in 0..self.random.within(1, 2) {
            self.line(format!("walk {id}"));
        }
        self.line(format!("pair {id} {k}"));
        self.line(format!("value {id} {} -", hex(pairs[k].name(&list))));
        true
    }

    /// The slot and the list of an active request that has pairs.
    fn some_list(&mut self) -> Option<(usize, Vec<u8>)> {
        let connection = &self.console.connection;
        let mut lists = Vec::new();
        for slot in (0..SLOTS).filter(|&slot| connection.taken(slot)) {
            let length = usize::from(connection.slots[slot].length).min(AREA);
            let list = &self.console.store[area(slot)][..length];
            match Pairs::new(list).count() {
                0 => {}
                1 => lists.push((slot, list.to_vec())),
                // These are drawn more often.
                _ => lists.extend(vec![(slot, list.to_vec()); 3]),
            }
        }
        (!lists.is_empty()).then(|| self.random.pick(&lists))
    }

    /// One of the pair's lengths becomes greater than what is left, or the list ends inside the pair, anywhere or in
    /// such a length.
    fn break_pair(&mut self, slot: usize, from: usize, pair: &Pair) {
        let value_length_at = match self.console.store[slot * AREA + from] {
            0..=127 => from + 1,
            _ => from + 4,
        };
        let at = self.random.pick(&[from, value_length_at]);
        let way = self.random.below(3);
        if way > 0 {
            let byte = self.random.within(192, 255);
            self.line(format!("poke byte {} {byte}", slot * AREA + at));
        }
        let length = match way {
            0 => self.random.within(from + 1, pair.end() - 1),
            1 => return,
            _ => AREA.min(at + self.random.within(1, 3)),
        };
        self.line(format!("poke length {slot} {length}"));
    }

    fn between_records(&self) -> bool {
        let connection = &self.console.connection;
        connection.held == 0 && connection.content == 0 && connection.padding == 0
    }
}

#[cfg(test)]
mod tests {
    use super::*;
    use crate::pairs::{malformed_at, read_length};

    /// Which part of the malformed pair cannot be read: the length of the name, that of the value, of which nothing
    /// or too little is there, the name, the value.
    fn part(list: &[u8], place: usize) -> usize {
        let Some((name, at)) = read_length(list, place) else {
            return 0;
        };
        match read_length(list, at) {
            None => 1 + usize::from(at < list.len()),
            Some((_, at)) if at + name > list.len() => 3,
            Some(_) => 4,
        }
    }

    #[test]
    fn every_break_comes_behind_good_pairs() {
        let mut random = Random::new(1);
        for most in [QUERY, AREA] {
            let (mut parts, mut greatest) = ([0; 5], 0);
            for _ in 0..1_000 {
                let list = broken_list(&mut random, most);
                assert!(list.len() <= most);
                let place = malformed_at(&list).expect("it is broken");
                parts[part(&list, place)] += usize::from(place > 0);
                greatest = greatest.max(place);
            }
            assert!(parts.iter().all(|&n| n > 60), "{parts:?}");
            assert_eq!(greatest, most - 1);
        }
    }
}
