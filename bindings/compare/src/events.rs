//! Events of the crate: without the piece that they lie in, and in the ordinary receiver's words.

use compare::answer as plain;
use yotnaghez::{Close, Event, Fault, Measure, Role, Status, Stream};

/// Data owes no reply, so its bytes need not be kept.
pub fn without_bytes(event: Event) -> Event<'static> {
    match event {
        Event::Data { id, stream, .. } => Event::Data {
            id,
            stream,
            bytes: &[],
        },
        Event::Open { id, role, keep } => Event::Open { id, role, keep },
        Event::Ready { id, length } => Event::Ready { id, length },
        Event::End {
            id,
            stream,
            measure,
        } => Event::End {
            id,
            stream,
            measure,
        },
        Event::Abort { id } => Event::Abort { id },
        Event::Refuse { id, status } => Event::Refuse { id, status },
        Event::Fault { id, fault } => Event::Fault { id, fault },
        Event::Query {
            max_conns,
            max_reqs,
            mpxs_conns,
        } => Event::Query {
            max_conns,
            max_reqs,
            mpxs_conns,
        },
        Event::Unknown { kind } => Event::Unknown { kind },
        Event::Closed { cause } => Event::Closed { cause },
    }
}

fn stream_of(stream: Stream) -> plain::Stream {
    match stream {
        Stream::Stdin => plain::Stream::Stdin,
        Stream::Data => plain::Stream::Data,
    }
}

/// The event in the ordinary receiver's words.
pub fn in_plain(event: Event) -> plain::Event {
    match event {
        Event::Open { id, role, keep } => {
            let role = match role {
                Role::Responder => plain::Role::Responder,
                Role::Authorizer => plain::Role::Authorizer,
                Role::Filter => plain::Role::Filter,
            };
            plain::Event::Open { id, role, keep }
        }
        Event::Ready { id, length } => plain::Event::Ready {
            id,
            length: length as u16,
        },
        Event::Data { id, stream, bytes } => plain::Event::Data {
            id,
            stream: stream_of(stream),
            count: bytes.len(),
        },
        Event::End {
            id,
            stream,
            measure,
        } => {
            let word = match measure {
                Measure::Short => plain::Word::Short,
                Measure::Exact => plain::Word::Exact,
                Measure::Over => plain::Word::Over,
                Measure::Unstated => plain::Word::Unstated,
            };
            plain::Event::End {
                id,
                stream: stream_of(stream),
                word,
            }
        }
        Event::Abort { id } => plain::Event::Abort { id },
        Event::Refuse {
            id,
            status: Status::Overloaded,
        } => plain::Event::Refuse {
            id,
            status: plain::Status::Overloaded,
        },
        Event::Refuse {
            id,
            status: Status::UnknownRole,
        } => plain::Event::Refuse {
            id,
            status: plain::Status::UnknownRole,
        },
        Event::Fault { id, fault } => {
            let fault = match fault {
                Fault::BeginAgain => plain::Fault::BeginAgain,
                Fault::OutOfTurn => plain::Fault::OutOfTurn,
                Fault::WrongType => plain::Fault::WrongType,
                Fault::TooLong => plain::Fault::TooLong,
                Fault::Malformed(place) => plain::Fault::Malformed { place },
                Fault::Repeated => plain::Fault::Repeated,
            };
            plain::Event::Fault { id, fault }
        }
        Event::Query {
            max_conns,
            max_reqs,
            mpxs_conns,
        } => plain::Event::Query(plain::Named {
            max_conns,
            max_reqs,
            mpxs_conns,
        }),
        Event::Unknown { kind } => plain::Event::Unknown { kind },
        Event::Closed { cause } => plain::Event::Closed(match cause {
            Close::Version => plain::Close::Version,
            Close::BeginLength => plain::Close::BeginLength,
            Close::QueryLength => plain::Close::QueryLength,
            Close::QueryMalformed(place) => plain::Close::QueryMalformed { place },
        }),
    }
}
