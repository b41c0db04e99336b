//! Captures: what one connection carried, whole or cut or damaged, and often with what makes a lift of it hard.

use super::lists::damaged_list;
use super::records::{begin_body, query, record};
use super::stream;
use crate::lift::records;
use crate::random::Random;
use crate::wire::{kind, HEADER};

/// A capture of a connection. What a web server sends is the greater part of it, and it may go on behind a close.
pub fn capture(seed: u64) -> Vec<u8> {
    let mut random = Random::new(seed);
    let mut capture = stream(random.draw());
    if random.one_in(3) {
        early_records(&mut random, &mut capture);
    }
    if random.one_in(6) {
        crowd(&mut random, &mut capture);
    }
    // Behind a close it goes on, and behind requests that are active each BEGIN comes again.
    if random.one_in(8) {
        capture.extend(stream(random.draw()));
    }
    if random.one_in(3) {
        let put_in = closing_record(&mut random, &capture);
        put_in_between(&mut random, &mut capture, put_in);
    }
    if random.one_in(24) {
        let put_in = longest_record(&mut random, &capture);
        put_in_between(&mut random, &mut capture, put_in);
    }
    match random.below(12) {
        0..=2 => capture.truncate(random.index(capture.len() + 1)),
        3 | 4 => cut_at_an_edge(&mut random, &mut capture),
        5 => damage(&mut random, &mut capture),
        6 => damage_header(&mut random, &mut capture),
        _ => {}
    }
    capture
}

/// The id of some record, management left out; or any, where there is none.
fn some_id(random: &mut Random, capture: &[u8]) -> u16 {
    let mut ids: Vec<u16> = records(capture)
        .iter()
        .filter_map(|record| record.header)
        .map(|header| header.id)
        .collect();
    ids.retain(|&id| id != 0);
    if ids.is_empty() {
        ids.push(1);
    }
    random.pick(&ids)
}

/// Records of any type but BEGIN at the start, of an id that is opened later or is not.
fn early_records(random: &mut Random, capture: &mut Vec<u8>) {
    let mut early = Vec::new();
    for _ in 0..random.within(1, 4) {
        let id = some_id(random, capture);
        let kind = random.pick(&[0, 2, 3, 4, 5, 5, 6, 8, 9, 11, 255]);
        let n = random.pick(&[0, 1, 8, 20, 300]);
        let content = random.bytes(n);
        early.extend(record(random, kind, id, &content));
    }
    capture.splice(0..0, early);
}

/// As many openings at the start as there are slots, or almost: those that follow find no room, or little.
fn crowd(random: &mut Random, capture: &mut Vec<u8>) {
    let mut crowd = Vec::new();
    for i in 0..random.within(13, 17) {
        let body = begin_body(random);
        crowd.extend(record(random, kind::BEGIN, 1_000 + i as u16, &body));
    }
    capture.splice(0..0, crowd);
}

/// A record that closes the connection, by any of the four causes. Where its id is active, a BEGIN does not.
fn closing_record(random: &mut Random, capture: &[u8]) -> Vec<u8> {
    let id = some_id(random, capture);
    match random.below(5) {
        0 => {
            let kind = random.pick(&[kind::BEGIN, kind::PARAMS, kind::STDIN, 77]);
            let n = random.pick(&[0, 8, 8, 40]);
            let content = random.bytes(n);
            let mut bytes = record(random, kind, id, &content);
            bytes[0] = random.pick(&[0, 2, 129, 255]);
            bytes
        }
        1 => {
            let id = random.pick(&[id, id, id ^ 256, 4_321]);
            let n = random.pick(&[0, 7, 9, 16, 264, 2_048]);
            let content = random.bytes(n);
            record(random, kind::BEGIN, id, &content)
        }
        2 => {
            let n = random.pick(&[513, 514, 600, 768, 65_535]);
            let content = random.bytes(n);
            record(random, kind::GET_VALUES, 0, &content)
        }
        // Mostly malformed; otherwise a query like any other.
        _ => {
            let mut content = query(random);
            content.extend(damaged_list(random));
            content.truncate(512);
            record(random, kind::GET_VALUES, 0, &content)
        }
    }
}

/// The most content and the most padding in one record.
fn longest_record(random: &mut Random, capture: &[u8]) -> Vec<u8> {
    let id = some_id(random, capture);
    let kind = random.pick(&[kind::PARAMS, kind::STDIN, kind::STDIN, kind::DATA]);
    let content = random.bytes(65_535);
    let mut bytes = record(random, kind, id, &content);
    bytes.truncate(HEADER + content.len());
    bytes[6] = 255;
    bytes.extend(random.bytes(255));
    bytes
}

/// Behind any record of the capture, or before all.
fn put_in_between(random: &mut Random, capture: &mut Vec<u8>, bytes: Vec<u8>) {
    let mut places: Vec<usize> = records(capture).iter().map(|r| r.offset).collect();
    places.push(capture.len());
    let at = random.pick(&places);
    capture.splice(at..at, bytes);
}

/// A cut around the end of a header, in the padding, or at the end of a record.
fn cut_at_an_edge(random: &mut Random, capture: &mut Vec<u8>) {
    let all = records(capture);
    if all.is_empty() {
        return;
    }
    let record = random.pick(&all);
    let length = record.bytes.len();
    let content = record.header.map_or(0, |header| header.content.into());
    let n = match random.below(4) {
        0 => random.pick(&[1, 2, 3, 4, 6, 7]),
        1 => random.pick(&[HEADER, HEADER + 1]),
        2 => random.within((HEADER + content).min(length), length),
        _ => length - random.index(2),
    };
    let end = record.offset + n.min(length);
    capture.truncate(end);
}

/// A few bytes that are others, too many, or lost.
fn damage(random: &mut Random, capture: &mut Vec<u8>) {
    for _ in 0..random.within(1, 3) {
        let at = random.index(capture.len());
        match random.below(3) {
            0 => capture.insert(at, random.byte()),
            _ if capture.is_empty() => {}
            1 => {
                capture.remove(at);
            }
            _ => capture[at] = random.byte(),
        }
    }
}

/// One byte of a header is another. With a length, what follows is divided otherwise.
fn damage_header(random: &mut Random, capture: &mut [u8]) {
    let places: Vec<usize> = records(capture).iter().map(|r| r.offset).collect();
    if places.is_empty() {
        return;
    }
    let at = random.pick(&places) + random.index(HEADER);
    if let Some(byte) = capture.get_mut(at) {
        *byte = random.pick(&[0, 1, 2, 3, *byte ^ 1, *byte ^ 128]);
    }
}
