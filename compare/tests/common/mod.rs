//! A connection with its store, fed with records.
#![allow(dead_code)]

use compare::answer::{Event, Refusal, Step, Stream, Word};
use compare::pairs::{pair_length, write_pair};
use compare::state::{area, Connection, STORE};
use compare::wire::{kind, record_with};

pub struct Station {
    pub connection: Connection,
    pub store: Vec<u8>,
}

pub const KEEP: [u8; 8] = [0, 1, 1, 0, 0, 0, 0, 0];
pub const DROP: [u8; 8] = [0, 1, 0, 0, 0, 0, 0, 0];
pub const PORT: &[u8] = b"\x0b\x02SERVER_PORT80";

pub fn role(number: u16, flags: u8) -> [u8; 8] {
    let [high, low] = number.to_be_bytes();
    [high, low, flags, 0, 0, 0, 0, 0]
}

/// A record without padding.
pub fn record(kind: u8, id: u16, content: &[u8]) -> Vec<u8> {
    padded(kind, id, content, 0)
}

/// Padding and the reserved byte are anything but zero.
pub fn padded(kind: u8, id: u16, content: &[u8], padding: u8) -> Vec<u8> {
    record_with(kind, id, content, 0xaa, &vec![0xbb; padding.into()])
}

impl Station {
    pub fn new() -> Station {
        let mut station = Station {
            connection: Connection::closed(),
            store: vec![0xcc; STORE],
        };
        station.connection.start(&mut station.store).unwrap();
        assert!(station.store.iter().all(|&b| b == 0));
        station
    }

    /// With a request that is past its parameters.
    pub fn ready(id: u16, body: [u8; 8]) -> Station {
        let mut station = Station::new();
        station.open(id, body);
        station.send(kind::PARAMS, id, PORT);
        station.send(kind::PARAMS, id, &[]);
        station
    }

    pub fn step(&mut self, piece: &[u8]) -> Result<Step, Refusal> {
        self.connection.step(&mut self.store, piece)
    }

    /// Feeds bytes in pieces of one size, to their end or a close; data byte by byte.
    pub fn feed_in(&mut self, bytes: &[u8], size: usize) -> Vec<Told> {
        let mut told = Vec::new();
        for piece in bytes.chunks(size) {
            let mut from = 0;
            while from < piece.len() && self.connection.open {
                let step = self.step(&piece[from..]).unwrap();
                assert!(step.used > 0);
                match step.event {
                    Some(Event::Data { id, stream, count }) => {
                        assert_eq!(count, step.used);
                        let bytes = &piece[from..from + count];
                        told.extend(bytes.iter().map(|&byte| Told::Byte(id, stream, byte)));
                    }
                    Some(event) => told.push(Told::Event(event)),
                    None => {}
                }
                from += step.used;
            }
        }
        told
    }

    pub fn feed(&mut self, bytes: &[u8]) -> Vec<Told> {
        self.feed_in(bytes, bytes.len().max(1))
    }

    pub fn send(&mut self, kind: u8, id: u16, content: &[u8]) -> Vec<Told> {
        self.feed(&record(kind, id, content))
    }

    pub fn open(&mut self, id: u16, body: [u8; 8]) -> Vec<Told> {
        self.send(kind::BEGIN, id, &body)
    }

    pub fn area(&self, id: u16) -> &[u8] {
        let slot = self.connection.find(id).unwrap();
        &self.store[area(slot)]
    }
}

#[derive(Clone, Copy, Debug, PartialEq, Eq)]
pub enum Told {
    Event(Event),
    Byte(u16, Stream, u8),
}

pub fn told(event: Event) -> Vec<Told> {
    vec![Told::Event(event)]
}

pub fn fault(id: u16, fault: compare::answer::Fault) -> Vec<Told> {
    told(Event::Fault { id, fault })
}

/// The pairs of these names and values.
pub fn list_of(pairs: &[(&str, &str)]) -> Vec<u8> {
    let mut list = Vec::new();
    for (name, value) in pairs {
        let (name, value) = (name.as_bytes(), value.as_bytes());
        let mut pair = vec![0; pair_length(name, value)];
        write_pair(&mut pair, name, value).unwrap();
        list.extend(pair);
    }
    list
}

/// A filter that is past its parameters, in slot 0.
pub fn filter(pairs: &[(&str, &str)]) -> Station {
    let mut station = Station::new();
    station.open(1, role(3, 1));
    let list = list_of(pairs);
    if !list.is_empty() {
        station.send(kind::PARAMS, 1, &list);
    }
    let length = list.len() as u16;
    let ready = told(Event::Ready { id: 1, length });
    assert_eq!(station.send(kind::PARAMS, 1, &[]), ready);
    station
}

pub fn end(id: u16, stream: Stream, word: Word) -> Vec<Told> {
    told(Event::End { id, stream, word })
}

/// How many bytes of STDIN and of DATA were shown.
pub fn counts(station: &Station, id: u16) -> (u32, u32) {
    let slot = station.connection.find(id).unwrap();
    let request = station.connection.slots[slot];
    (request.stdin_shown, request.data_shown)
}
