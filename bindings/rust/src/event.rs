//! What the web server's bytes tell.

use crate::codes::{Close, Fault, Measure, Role, Status, Stream};
use crate::ffi;

/// An event. Data lies in the piece that was read, so an event lives as long as the piece.
#[derive(Clone, Copy, Debug, PartialEq, Eq)]
pub enum Event<'p> {
    /// A request is opened. `keep` says whether the connection outlives it.
    Open {
        /// The request.
        id: u16,
        /// What it asks for.
        role: Role,
        /// KEEP_CONN.
        keep: bool,
    },
    /// The parameters of a request are complete. An authorizer is answered now.
    Ready {
        /// The request.
        id: u16,
        /// How many bytes its list has.
        length: usize,
    },
    /// Bytes of a stream.
    Data {
        /// The request.
        id: u16,
        /// Which of its streams.
        stream: Stream,
        /// The bytes, a part of the piece.
        bytes: &'p [u8],
    },
    /// A stream has ended. After the last one of its role, the request is answered and finished.
    End {
        /// The request.
        id: u16,
        /// Which of its streams.
        stream: Stream,
        /// Whether as much came as the request stated.
        measure: Measure,
    },
    /// The web server gives a request up. Finish it soon.
    Abort {
        /// The request.
        id: u16,
    },
    /// A request is not opened. A reply is owed.
    Refuse {
        /// The id that it would have had.
        id: u16,
        /// Why.
        status: Status,
    },
    /// A request broke a rule, and its parameters are lost. Finish it.
    Fault {
        /// The request.
        id: u16,
        /// What it did.
        fault: Fault,
    },
    /// The web server asks for values. A reply is owed.
    Query {
        /// FCGI_MAX_CONNS is named.
        max_conns: bool,
        /// FCGI_MAX_REQS is named.
        max_reqs: bool,
        /// FCGI_MPXS_CONNS is named.
        mpxs_conns: bool,
    },
    /// A management record of a type that is not known. A reply is owed.
    Unknown {
        /// The type.
        kind: u8,
    },
    /// The connection is closed, and all requests are gone.
    Closed {
        /// Why.
        cause: Close,
    },
}

impl<'p> Event<'p> {
    /// The request that an event is about. A query, an unknown type and a close are about none.
    pub fn id(&self) -> Option<u16> {
        match *self {
            Event::Open { id, .. }
            | Event::Ready { id, .. }
            | Event::Data { id, .. }
            | Event::End { id, .. }
            | Event::Abort { id }
            | Event::Refuse { id, .. }
            | Event::Fault { id, .. } => Some(id),
            Event::Query { .. } | Event::Unknown { .. } | Event::Closed { .. } => None,
        }
    }

    /// The event that was told, and the bytes that the call used. None where there was nothing to tell.
    pub(crate) fn told(e: ffi::Event, used: &'p [u8]) -> Option<Event<'p>> {
        let id = e.id;
        Some(match e.kind {
            0 => return None,
            1 => Event::Open {
                id,
                role: Role::told(e.number),
                keep: e.keep == 1,
            },
            2 => Event::Ready {
                id,
                length: e.count,
            },
            3 => Event::Data {
                id,
                stream: Stream::told(e.stream),
                bytes: &used[used.len() - e.count..],
            },
            4 => Event::End {
                id,
                stream: Stream::told(e.stream),
                measure: Measure::told(e.number),
            },
            5 => Event::Abort { id },
            6 => Event::Refuse {
                id,
                status: Status::told(e.number),
            },
            7 => Event::Fault {
                id,
                fault: Fault::told(e.number, e.place),
            },
            8 => Event::Query {
                max_conns: e.number & 1 != 0,
                max_reqs: e.number & 2 != 0,
                mpxs_conns: e.number & 4 != 0,
            },
            9 => Event::Unknown { kind: e.number },
            10 => Event::Closed {
                cause: Close::told(e.number, e.place),
            },
            kind => panic!("event {kind}: the library has no such number"),
        })
    }

    /// The same in numbers, for the call that replies to it.
    pub(crate) fn numbers(&self) -> ffi::Event {
        let mut e = ffi::Event {
            id: self.id().unwrap_or(0),
            ..ffi::Event::default()
        };
        match *self {
            Event::Open { role, keep, .. } => {
                (e.kind, e.number, e.keep) = (1, role.number(), u8::from(keep));
            }
            Event::Ready { length, .. } => (e.kind, e.count) = (2, length),
            Event::Data { stream, bytes, .. } => {
                (e.kind, e.stream, e.count) = (3, stream.number(), bytes.len());
            }
            Event::End {
                stream, measure, ..
            } => (e.kind, e.stream, e.number) = (4, stream.number(), measure.number()),
            Event::Abort { .. } => e.kind = 5,
            Event::Refuse { status, .. } => (e.kind, e.number) = (6, status.number()),
            Event::Fault { fault, .. } => {
                (e.kind, e.number, e.place) = (7, fault.number(), fault.place().unwrap_or(0));
            }
            Event::Query {
                max_conns,
                max_reqs,
                mpxs_conns,
            } => {
                let named = [max_conns, max_reqs, mpxs_conns].map(u8::from);
                (e.kind, e.number) = (8, named[0] + 2 * named[1] + 4 * named[2]);
            }
            Event::Unknown { kind } => (e.kind, e.number) = (9, kind),
            Event::Closed { cause } => {
                (e.kind, e.number, e.place) = (10, cause.number(), cause.place().unwrap_or(0));
            }
        }
        e
    }
}
