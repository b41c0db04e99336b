//! The connection that both receivers read.

use compare::state::{Connection, STORE};
use compare::wire::{kind, Header};

/// Content bytes of a STDIN record.
pub const RECORD: usize = 8_192;

pub fn record(bytes: &mut Vec<u8>, kind: u8, id: u16, content: &[u8]) {
    let header = Header {
        version: 1,
        kind,
        id,
        content: content.len() as u16,
        padding: 0,
    };
    bytes.extend(header.to_bytes());
    bytes.extend(content);
}

/// How many bytes open a request and give it its parameters.
const OPENED: usize = 16 + 23 + 8;

/// How many bytes of an input open its eight requests.
pub const OPENING: usize = 8 * OPENED;

/// So many requests are opened, with the ids from one on, and get their parameters.
pub fn opening(first: u16, count: u16) -> Vec<u8> {
    let mut bytes = Vec::new();
    for id in first..first + count {
        record(&mut bytes, kind::BEGIN, id, &[0, 1, 1, 0, 0, 0, 0, 0]);
        record(&mut bytes, kind::PARAMS, id, b"\x0b\x02SERVER_PORT80");
        record(&mut bytes, kind::PARAMS, id, &[]);
    }
    assert_eq!(bytes.len(), usize::from(count) * OPENED);
    bytes
}

/// The ends of STDIN of so many requests, with the ids from 1 on.
pub fn stdin_ends(count: u16) -> Vec<u8> {
    let mut bytes = Vec::new();
    for id in 1..=count {
        record(&mut bytes, kind::STDIN, id, &[]);
    }
    bytes
}

/// Eight requests are opened and get their parameters; then STDIN content goes to them in turn, and ends.
pub fn input(total: usize) -> Vec<u8> {
    let mut bytes = Vec::with_capacity(total + total / RECORD * 8 + 1_000);
    bytes.extend(opening(1, 8));
    let content: Vec<u8> = (0..RECORD).map(|i| (i * 7) as u8).collect();
    for k in 0..total / RECORD {
        record(&mut bytes, kind::STDIN, (k % 8) as u16 + 1, &content);
    }
    bytes.extend(stdin_ends(8));
    bytes
}

/// How many steps the pieces take: they are cut at the edges of headers and contents.
pub fn steps(bytes: &[u8], piece: usize) -> usize {
    let (mut at, mut steps) = (0, 0);
    while at < bytes.len() {
        let content = usize::from(bytes[at + 4]) * 256 + usize::from(bytes[at + 5]);
        for part in [8, content] {
            let end = at + part;
            while at < end {
                at = end.min((at / piece + 1) * piece);
                steps += 1;
            }
        }
    }
    steps
}

/// How many calls of `next_event` the pieces take, as the plain receiver makes them.
pub fn events(bytes: &[u8], piece: usize) -> usize {
    let (mut connection, mut store) = (Connection::closed(), vec![0; STORE]);
    connection
        .start(&mut store)
        .expect("the store has its size");
    let mut events = 0;
    for mut rest in bytes.chunks(piece) {
        while !rest.is_empty() {
            let next = connection.next_event(&mut store, rest);
            rest = &rest[next.expect("it stays open").used..];
            events += 1;
        }
    }
    events
}
