//! The line of an event, as the replay prints it; data with all its bytes at once.

use super::words::hex;
use crate::answer::{Event, Role, Stream, Word};

/// The bytes are those that the call used.
pub fn event_text(event: &Event, used: &[u8]) -> String {
    match *event {
        Event::Open { id, role, keep } => {
            let role = match role {
                Role::Responder => "responder",
                Role::Authorizer => "authorizer",
                Role::Filter => "filter",
            };
            format!("open {id} {role} {}", if keep { "keep" } else { "drop" })
        }
        Event::Ready { id, length } => format!("ready {id} {length}"),
        Event::Data { id, stream, count } => {
            let bytes = hex(content_of(used, count));
            format!("data {id} {} {bytes}", stream_text(stream))
        }
        Event::End { id, stream, word } => {
            format!("end {id} {} {}", stream_text(stream), word_text(word))
        }
        Event::Abort { id } => format!("abort {id}"),
        Event::Refuse { id, status } => format!("refuse {id} {}", status as u8),
        Event::Fault { id, fault } => {
            format!("fault {id} {}{}", fault.number(), place_text(fault.place()))
        }
        Event::Query(named) => format!(
            "query {}{}{}",
            u8::from(named.max_conns),
            u8::from(named.max_reqs),
            u8::from(named.mpxs_conns)
        ),
        Event::Unknown { kind } => format!("unknown {kind}"),
        Event::Closed(cause) => format!("closed {}{}", cause.number(), place_text(cause.place())),
    }
}

/// Of the bytes that a call used, those that its data event shows: headers and padding come before them, nothing after.
pub fn content_of(used: &[u8], count: usize) -> &[u8] {
    &used[used.len() - count..]
}

/// Where a list is malformed; nothing for the faults and closes that have no place.
fn place_text(place: Option<u16>) -> String {
    place.map_or(String::new(), |place| format!(" at {place}"))
}

pub fn stream_text(stream: Stream) -> &'static str {
    match stream {
        Stream::Stdin => "stdin",
        Stream::Data => "data",
    }
}

fn word_text(word: Word) -> &'static str {
    match word {
        Word::Short => "short",
        Word::Exact => "exact",
        Word::Over => "over",
        Word::Unstated => "unstated",
    }
}
