//! Lists of pairs: well formed, with a name that comes twice, or malformed.

use super::bodies::stating;
use super::broken::broken_list;
use crate::pairs::{pair_length, write_pair};
use crate::random::Random;
use crate::state::AREA;

/// A name and its value.
pub type Named = (Vec<u8>, Vec<u8>);

pub fn append_pair(list: &mut Vec<u8>, name: &[u8], value: &[u8]) {
    let mut buffer = vec![0; pair_length(name, value)];
    write_pair(&mut buffer, name, value).expect("it has just the room");
    list.extend(buffer);
}

/// A pair with one of its lengths in four bytes, or both, whatever they are.
pub fn append_long_pair(random: &mut Random, list: &mut Vec<u8>, name: &[u8], value: &[u8]) {
    let long = random.within(1, 3);
    for (bit, part) in [(1, name), (2, value)] {
        if part.len() < 128 && long & bit == 0 {
            list.push(part.len() as u8);
        } else {
            list.extend((part.len() as u32 | 0x8000_0000).to_be_bytes());
        }
    }
    list.extend(name);
    list.extend(value);
}

/// Few names, so that often one is the start of another, or differs from it in case only.
pub fn any_name(random: &mut Random) -> Vec<u8> {
    const NAMES: [&str; 10] = [
        "A",
        "AB",
        "ABC",
        "a",
        "TEMP",
        "TEMPS",
        "temp",
        "READING",
        "SERVER_PORT",
        "EMPTY",
    ];
    match random.below(10) {
        0 => Vec::new(),
        1..=6 => random.pick(&NAMES).into(),
        7 => vec![b'n'; random.pick(&[126, 127, 128, 129])],
        _ => {
            let n = random.within(1, 12);
            random.bytes(n)
        }
    }
}

pub fn any_value(random: &mut Random) -> Vec<u8> {
    let n = match random.below(10) {
        0 => 0,
        1 => random.pick(&[126, 127, 128, 129, 200]),
        _ => random.within(1, 12),
    };
    random.bytes(n)
}

/// No name comes twice, so that most requests become ready.
fn distinct(random: &mut Random) -> Vec<Named> {
    let mut pairs: Vec<Named> = Vec::new();
    for _ in 0..random.below(6) {
        let name = any_name(random);
        if pairs.iter().all(|(other, _)| *other != name) {
            pairs.push((name, any_value(random)));
        }
    }
    if random.one_in(2) {
        let at = random.within(0, pairs.len());
        pairs.splice(at..at, stating(random));
    }
    pairs
}

/// Mostly in the shortest form of the lengths; otherwise in any form, equal names in different ones too.
fn written(random: &mut Random, pairs: &[Named]) -> Vec<u8> {
    let mut list = Vec::new();
    let long = random.one_in(4);
    for (name, value) in pairs {
        if long {
            append_long_pair(random, &mut list, name, value);
        } else {
            append_pair(&mut list, name, value);
        }
    }
    list
}

/// A well-formed list in which no name comes twice.
pub fn few_pairs(random: &mut Random) -> Vec<u8> {
    let pairs = distinct(random);
    written(random, &pairs)
}

/// A well-formed list in which one name comes twice: side by side or apart, with the same value or with another.
pub fn repeating_list(random: &mut Random) -> Vec<u8> {
    let mut pairs = distinct(random);
    if pairs.is_empty() || random.one_in(6) {
        // The empty name is one that a test could leave out.
        pairs.retain(|(name, _)| !name.is_empty());
        let at = random.within(0, pairs.len());
        pairs.insert(at, (Vec::new(), any_value(random)));
    }
    let first = random.index(pairs.len());
    let (name, mut value) = pairs[first].clone();
    if !random.one_in(3) {
        value = any_value(random);
    }
    let at = match random.below(4) {
        0 => first + 1,
        1 => 0,
        2 => pairs.len(),
        _ => random.within(0, pairs.len()),
    };
    pairs.insert(at, (name, value));
    written(random, &pairs)
}

/// Short names in any order, few or so many that an area is almost full; mostly one of them comes twice.
fn many_names(random: &mut Random) -> Vec<u8> {
    let single = (0..=255u8).map(|a| vec![a]);
    let double = (0..=255u8).flat_map(|a| (0..4u8).map(move |b| vec![a, b]));
    let mut names: Vec<_> = single.chain(double).collect();
    for i in 0..names.len() {
        let other = random.within(i, names.len() - 1);
        names.swap(i, other);
    }
    names.truncate(random.pick(&[12, 40, 150, 1_000]));
    if !random.one_in(3) {
        let (from, to) = (random.index(names.len()), random.index(names.len()));
        names[to] = names[from].clone();
    }
    let mut list = Vec::new();
    for name in names {
        append_pair(&mut list, &name, &[]);
    }
    list
}

/// A list that fills an area. Its last name is the first one once more, or almost.
fn far_apart(random: &mut Random) -> Vec<u8> {
    let name = any_name(random);
    let last = match random.below(6) {
        0 => [&name[..], b"S"].concat(),
        1 => name[..name.len() / 2].to_vec(),
        2 => name.to_ascii_lowercase(),
        _ => name.clone(),
    };
    let (mut list, mut end) = (Vec::new(), Vec::new());
    append_pair(&mut list, &name, &any_value(random));
    append_pair(&mut end, &last, &any_value(random));
    let value = random.bytes(AREA - list.len() - end.len() - 6);
    append_pair(&mut list, b"Z", &value);
    list.extend(end);
    list
}

/// A well-formed list of just so many bytes, which are more than 300.
pub fn filled_list(random: &mut Random, length: usize) -> Vec<u8> {
    let mut list = few_pairs(random);
    while list.len() + 300 > length {
        list = few_pairs(random);
    }
    // The last pair fills up: a name of one byte, which hardly another pair has, and its value's length in four.
    let value = random.bytes(length - list.len() - 6);
    append_pair(&mut list, b"Z", &value);
    list
}

pub fn any_list(random: &mut Random) -> Vec<u8> {
    match random.below(30) {
        0 | 1 => Vec::new(),
        2 => filled_list(random, AREA),
        3 => filled_list(random, AREA + 1),
        4 => {
            let length = random.within(400, AREA);
            filled_list(random, length)
        }
        5 => damaged_list(random),
        6 | 7 => broken_list(random, AREA),
        8..=10 => repeating_list(random),
        11 if random.one_in(2) => many_names(random),
        11 => far_apart(random),
        _ => few_pairs(random),
    }
}

/// Mostly malformed. Often a name comes twice before that, which must not matter.
pub fn damaged_list(random: &mut Random) -> Vec<u8> {
    let mut list = if random.one_in(3) {
        repeating_list(random)
    } else {
        few_pairs(random)
    };
    match random.below(6) {
        // The last byte lacks, or one is too many.
        0 => {
            list.pop();
        }
        1 => list.push(random.byte()),
        // The four-byte form of a small number, which is no damage.
        2 => {
            let n = random.byte() & 0x7f;
            list.extend(if random.one_in(2) {
                [0x80, 0, 0, n, 0]
            } else {
                [0, 0x80, 0, 0, n]
            });
            list.extend(random.bytes(n.into()));
        }
        // Two lengths whose sum passes 32 bits, or a cut length.
        3 => list.extend([0xff, 0xff, 0xff, 0xff, 0xff, 0xff, 0xff, 0xff, 1, 2]),
        4 => {
            let n = random.within(1, 7);
            let length = random.pick(&[0, 5, 0x7f, 0x80]);
            list.extend(&[0x80, 0, 0, length, 0x80, 0, 0][..n]);
        }
        _ => {
            let n = random.within(1, 30);
            list.extend(random.bytes(n));
        }
    }
    list
}
