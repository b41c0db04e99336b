//! The number that all calls are mixed into: what goes into it, and that it is the same read or in memory.

mod common;

use common::{record, KEEP, PORT};
use compare::digest::{digest, reading_digest, readings_digest};
use compare::scripts::stream;
use compare::state::{Connection, STORE};
use compare::wire::kind::*;
use std::io::{self, Read};

/// What an event adds: its kind, its id, a small number, a length or a place.
fn weight(kind: u64, id: u64, what: u64, n: u64) -> u64 {
    kind + (id << 8) + (what << 24) + (n << 32)
}

#[test]
fn a_call_of_next_event_counts_once() {
    let input = [
        record(BEGIN, 1, &KEEP),
        record(PARAMS, 1, PORT),
        record(PARAMS, 1, &[]),
        record(STDIN, 1, b"abc"),
    ]
    .concat();
    let open = weight(1, 1, 1, 1);
    let ready = weight(2, 1, 0, 15);
    let data = weight(3, 1, 5, 3);
    let mix = |all: &[u64]| all.iter().fold(0, |sum, w| (sum * 33 + w) % (1 << 56));
    let store = &mut vec![0; STORE];
    let next = digest(Connection::next_event, store, &input, input.len());
    assert_eq!(next, mix(&[open, ready, data]));
    // A step that tells nothing counts too: two for the parameters, one for the header of the data.
    let steps = digest(Connection::step, store, &input, input.len());
    assert_eq!(steps, mix(&[0, open, 0, 0, ready, 0, data]));
    // Where a piece ends, so does the call: here behind the header of the parameters.
    let next = digest(Connection::next_event, store, &input[..32], 24);
    assert_eq!(next, mix(&[open, 0, 0]));
}

/// Hands out fewer bytes than the buffer takes.
struct Slow<'a>(&'a [u8]);

impl Read for Slow<'_> {
    fn read(&mut self, buffer: &mut [u8]) -> io::Result<usize> {
        let n = buffer.len().min(5);
        self.0.read(&mut buffer[..n])
    }
}

#[test]
fn the_same_read_and_in_memory() {
    let (mut one, mut other) = (vec![1; STORE], vec![2; STORE]);
    for seed in 0..40 {
        let bytes = stream(seed);
        for size in [1, 7, 8, 100, 65_536] {
            let memory = digest(Connection::next_event, &mut one, &bytes, size);
            let buffer = &mut vec![0; size];
            let read = reading_digest(Connection::next_event, &mut other, buffer, &bytes[..]);
            assert_eq!((memory, &one), (read, &other));
        }
        // The pieces are what the reads give.
        let memory = digest(Connection::step, &mut one, &bytes, 5);
        let read = reading_digest(Connection::step, &mut other, &mut [0; 64], Slow(&bytes));
        assert_eq!(memory, read);
    }
}

#[test]
fn no_store_and_no_buffer() {
    let input = record(42, 0, &[]);
    let call = Connection::next_event;
    assert_ne!(digest(call, &mut vec![0; STORE], &input, 8), 0);
    assert_eq!(digest(call, &mut vec![0; STORE], &input, 0), 0);
    assert_eq!(digest(call, &mut vec![0; STORE - 1], &input, 8), 0);
    let read = |store: usize, buffer: usize| {
        reading_digest(call, &mut vec![0; store], &mut vec![0; buffer], &input[..])
    };
    assert_ne!(read(STORE, 8), 0);
    assert_eq!(read(STORE, 0), 0);
    assert_eq!(read(STORE - 1, 8), 0);
}

/// What a reading adds: its log number, its temperature from -600 on, seven times its raw count.
#[test]
fn readings_in_a_body() {
    let one = |log: u64, tenths: u64, raw: u64| log + (tenths << 32) + 7 * raw;
    let mix = |all: &[u64]| all.iter().fold(0, |sum, w| (sum * 33 + w) % (1 << 56));
    let body = [
        0x01, 0xef, 0x02, 0x05, 0x07, 0xa0, 0x06, 0x00, 0x80, 0x00, 0x01,
    ];
    let (first, second) = (one(1, 416, 5), one(7, 1_000, 0));
    assert_eq!(readings_digest(&body[..8], 64), mix(&[first, second]));
    // A call that tells nothing counts too, as does the refusal once; the call behind it uses nothing.
    assert_eq!(readings_digest(&body, 64), mix(&[first, second, 32]));
    assert_eq!(
        readings_digest(&body, 3),
        mix(&[0, first, 0, second, 0, 32])
    );
    assert_eq!(readings_digest(&body[..6], 64), mix(&[first, 0]));
    assert_eq!(readings_digest(&[], 64), 0);
    assert_eq!(readings_digest(&body, 0), 0);
    for (end, refusal) in [(&[0xff; 5][..], 31), (&[0x01, 0xa2, 0x06], 33)] {
        let body = [&body[..4], end].concat();
        assert_eq!(readings_digest(&body, 64), mix(&[first, refusal]));
    }
    let most = [
        &[0xff, 0xff, 0xff, 0xff, 0x0f, 0x00][..],
        &[0xff, 0xff, 0xff, 0xff, 0x0f],
    ]
    .concat();
    let large = u64::from(u32::MAX);
    assert_eq!(readings_digest(&most, 64), one(large, 600, large));
}
