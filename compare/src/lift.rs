//! One request lifted out of a capture: its records copied out, and the whole capture checked. This is request [13] on
//! a capture that lies whole in memory, so nothing is said here of pieces and of short buffers.

pub mod bench;
pub mod mistakes;

use crate::answer::{Close, Event, Refusal};
use crate::state::{Connection, STORE};
use crate::wire::{kind, Header, HEADER};
use std::fmt;

/// What the check says of a capture.
#[derive(Clone, Copy, Debug, PartialEq, Eq)]
pub enum Verdict {
    /// It ends between two records, and nothing in it closes the connection.
    Clean,
    /// It ends inside a record, be it in the header, the content or the padding.
    Cut,
    /// The first cause that a replay without calls meets, and where the record begins that has it.
    Closed { cause: Close, offset: u64 },
}

/// The line of a verdict. The place that close 14 has in a replay is not told: the number behind `at` is the record's.
impl fmt::Display for Verdict {
    fn fmt(&self, out: &mut fmt::Formatter) -> fmt::Result {
        match self {
            Verdict::Clean => write!(out, "clean"),
            Verdict::Cut => write!(out, "cut"),
            Verdict::Closed { cause, offset } => {
                write!(out, "closed {} at {offset}", cause.number())
            }
        }
    }
}

#[derive(Clone, Debug, PartialEq, Eq)]
pub struct Lifted {
    pub copy: Vec<u8>,
    pub verdict: Verdict,
}

/// What a program prints that lifts: the copy on standard output, a line on standard error.
#[derive(Clone, Debug, PartialEq, Eq)]
pub struct Said {
    pub copy: Vec<u8>,
    pub line: String,
}

/// The same by `lift`.
pub fn said(capture: &[u8], id: u16) -> Said {
    match lift(capture, id) {
        Ok(Lifted { copy, verdict }) => Said {
            copy,
            line: verdict.to_string(),
        },
        Err(refusal) => Said {
            copy: Vec::new(),
            line: format!("refused {}", refusal as u8),
        },
    }
}

/// The records of an id from its first BEGIN on, without their padding, and what the check says of the capture.
pub fn lift(capture: &[u8], id: u16) -> Result<Lifted, Refusal> {
    if id == 0 {
        return Err(Refusal::NotActive);
    }
    let mut replay = Replay::new();
    let (mut copy, mut begun, mut verdict) = (Vec::new(), false, Verdict::Clean);
    for record in records(capture) {
        // Before anything is copied: the record that closes is not, whichever id it has, and nothing behind it is read.
        if let Some(cause) = replay.close_by(record.bytes) {
            let offset = record.offset as u64;
            verdict = Verdict::Closed { cause, offset };
            break;
        }
        if !record.is_whole() {
            verdict = Verdict::Cut;
        }
        // Whose a record is shows once its header is whole.
        let Some(header) = record.header.filter(|header| header.id == id) else {
            continue;
        };
        // Any BEGIN record will do: also one that is refused, and one of which the capture has the header alone.
        begun |= header.kind == kind::BEGIN;
        if begun {
            copy.extend(record.unpadded());
        }
    }
    Ok(Lifted { copy, verdict })
}

/// A record as far as the capture has it: all but the last are whole.
#[derive(Clone, Copy, Debug)]
pub struct Record<'a> {
    /// Where its first byte is.
    pub offset: usize,
    /// None where the capture ends before its eighth byte.
    pub header: Option<Header>,
    pub bytes: &'a [u8],
}

impl Record<'_> {
    pub fn is_whole(&self) -> bool {
        self.header
            .is_some_and(|header| self.bytes.len() == length(header))
    }

    /// The header with the padding length made zero, and the content as far as it is there. The reserved byte stays.
    /// For a record whose header is whole.
    pub fn unpadded(&self) -> Vec<u8> {
        let content = self.header.map_or(0, |header| header.content.into());
        let end = self.bytes.len().min(HEADER + content);
        let mut bytes = self.bytes[..end].to_vec();
        bytes[6] = 0;
        bytes
    }
}

/// How long a record is by its header, its padding with it.
fn length(header: Header) -> usize {
    HEADER + usize::from(header.content) + usize::from(header.padding)
}

/// A capture divided into records by the lengths in their headers, whatever else these say.
pub fn records(capture: &[u8]) -> Vec<Record<'_>> {
    let (mut records, mut offset) = (Vec::new(), 0);
    while offset < capture.len() {
        let rest = &capture[offset..];
        let header = rest.first_chunk().map(Header::read);
        let bytes = &rest[..header.map_or(HEADER, length).min(rest.len())];
        records.push(Record {
            offset,
            header,
            bytes,
        });
        offset += bytes.len();
    }
    records
}

/// The ordinary receiver without calls. It decides which records close: of a BEGIN, the requests before it have a say.
struct Replay {
    connection: Connection,
    store: Vec<u8>,
}

impl Replay {
    fn new() -> Replay {
        let mut store = vec![0; STORE];
        let mut connection = Connection::closed();
        connection
            .start(&mut store)
            .expect("the store has its size");
        Replay { connection, store }
    }

    /// Why the connection closes in these bytes, where it does. It was open before.
    fn close_by(&mut self, mut bytes: &[u8]) -> Option<Close> {
        while !bytes.is_empty() {
            let step = self
                .connection
                .next_event(&mut self.store, bytes)
                .expect("it is open and in shape");
            if let Some(Event::Closed(cause)) = step.event {
                return Some(cause);
            }
            bytes = &bytes[step.used..];
        }
        None
    }
}
