//! Lists of name-value pairs. A pair is name length, value length, name, value.

use crate::answer::Refusal;

/// The longest name or value that is written.
pub const LONGEST: usize = 65_535;

/// Where a pair's name and value lie in its list.
#[derive(Clone, Copy, Debug, PartialEq, Eq)]
pub struct Pair {
    pub name_at: usize,
    pub name_length: usize,
    pub value_at: usize,
    pub value_length: usize,
}

impl Pair {
    pub fn name<'a>(&self, list: &'a [u8]) -> &'a [u8] {
        &list[self.name_at..self.name_at + self.name_length]
    }

    pub fn value<'a>(&self, list: &'a [u8]) -> &'a [u8] {
        &list[self.value_at..self.end()]
    }

    /// The place behind it.
    pub fn end(&self) -> usize {
        self.value_at + self.value_length
    }
}

/// What reading one pair answers.
#[derive(Clone, Copy, Debug, PartialEq, Eq)]
pub enum Reading {
    Pair(Pair),
    End,
    /// The place is that of the pair's first byte, wherever in the pair reading failed.
    Malformed {
        place: usize,
    },
}

/// Reads the pair at a place. At the end of the list, and past it, there is none.
pub fn read_pair(list: &[u8], place: usize) -> Reading {
    if place >= list.len() {
        return Reading::End;
    }
    match whole_pair(list, place) {
        Some(pair) => Reading::Pair(pair),
        None => Reading::Malformed { place },
    }
}

/// The pair at a place where the list has all of it.
fn whole_pair(list: &[u8], place: usize) -> Option<Pair> {
    let (name_length, after_name_length) = read_length(list, place)?;
    let (value_length, name_at) = read_length(list, after_name_length)?;
    // Each length is below 2^31, so the sums hold.
    let pair = Pair {
        name_at,
        name_length,
        value_at: name_at + name_length,
        value_length,
    };
    (pair.end() <= list.len()).then_some(pair)
}

/// The pairs of a list in order, up to its end or to the first malformed one.
#[derive(Clone, Copy, Debug)]
pub struct Pairs<'a> {
    list: &'a [u8],
    place: usize,
}

impl<'a> Pairs<'a> {
    pub fn new(list: &'a [u8]) -> Self {
        Pairs { list, place: 0 }
    }

    pub fn list(&self) -> &'a [u8] {
        self.list
    }

    /// The place behind the last pair that was read.
    pub fn place(&self) -> usize {
        self.place
    }

    /// The same list at another place, which may be any.
    pub fn moved_to(self, place: usize) -> Self {
        Pairs { place, ..self }
    }

    /// Reads a pair and moves behind it. At the end and before a malformed pair the place stays, so that reading on
    /// answers the same again.
    pub fn read_on(&mut self) -> Reading {
        let reading = read_pair(self.list, self.place);
        if let Reading::Pair(pair) = reading {
            self.place = pair.end();
        }
        reading
    }
}

impl Iterator for Pairs<'_> {
    type Item = Pair;

    fn next(&mut self) -> Option<Pair> {
        match self.read_on() {
            Reading::Pair(pair) => Some(pair),
            Reading::End | Reading::Malformed { .. } => None,
        }
    }
}

/// The length that stands at a place, and the place behind it; none where the list ends in or before it.
/// Each number has a four-byte form, those that one byte can hold too.
pub fn read_length(list: &[u8], place: usize) -> Option<(usize, usize)> {
    match list.get(place..)? {
        [short, ..] if *short < 128 => Some((usize::from(*short), place + 1)),
        [a, b, c, d, ..] => {
            let number = u32::from_be_bytes([*a & 0x7f, *b, *c, *d]);
            Some((number as usize, place + 4))
        }
        _ => None,
    }
}

/// The place of the first malformed pair; none where pairs use up all bytes of the list.
pub fn malformed_at(list: &[u8]) -> Option<usize> {
    let mut pairs = Pairs::new(list);
    loop {
        match pairs.read_on() {
            Reading::Pair(_) => {}
            Reading::End => return None,
            Reading::Malformed { place } => return Some(place),
        }
    }
}

pub fn well_formed(list: &[u8]) -> bool {
    malformed_at(list).is_none()
}

/// Whether two pairs have the same name. Names in order have equal ones side by side; to look at each two of them would
/// be slow, since 4,096 bytes have room for 1,088 names that all differ.
pub fn repeats_a_name(list: &[u8]) -> bool {
    let mut names: Vec<&[u8]> = Pairs::new(list).map(|pair| pair.name(list)).collect();
    names.sort_unstable();
    names.windows(2).any(|two| two[0] == two[1])
}

/// Writes a pair at the buffer's start, in the shortest form of its lengths, and answers the bytes written.
pub fn write_pair(buffer: &mut [u8], name: &[u8], value: &[u8]) -> Result<usize, Refusal> {
    if name.len() > LONGEST || value.len() > LONGEST {
        return Err(Refusal::TooLong);
    }
    let length = pair_length(name, value);
    if length > buffer.len() {
        return Err(Refusal::NoRoom);
    }
    let mut at = 0;
    for part in [name, value] {
        at += write_length(&mut buffer[at..], part.len());
    }
    for part in [name, value] {
        buffer[at..at + part.len()].copy_from_slice(part);
        at += part.len();
    }
    Ok(length)
}

pub fn pair_length(name: &[u8], value: &[u8]) -> usize {
    let form = |n: usize| if n < 128 { 1 } else { 4 };
    form(name.len()) + form(value.len()) + name.len() + value.len()
}

fn write_length(buffer: &mut [u8], n: usize) -> usize {
    if n < 128 {
        buffer[0] = n as u8;
        1
    } else {
        buffer[..4].copy_from_slice(&(n as u32 | 0x8000_0000).to_be_bytes());
        4
    }
}
