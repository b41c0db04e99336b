//! A captured connection replayed: a line for each event and each data byte, and how it stops.

use crate::answer::Event;
use crate::console::text::{content_of, event_text, stream_text};
use crate::state::{Connection, STORE};
use std::fmt::Write;

/// The lines of a capture that comes in pieces of one size. No request is ever finished.
pub fn replay(capture: &[u8], size: usize) -> String {
    let mut store = vec![0; STORE];
    let mut connection = Connection::closed();
    connection.start(&mut store).unwrap();
    let mut out = String::new();
    for mut piece in capture.chunks(size) {
        while !piece.is_empty() && connection.open {
            let step = connection.next_event(&mut store, piece).unwrap();
            let (used, rest) = piece.split_at(step.used);
            match step.event {
                None => {}
                Some(Event::Data { id, stream, count }) => {
                    for byte in content_of(used, count) {
                        writeln!(out, "byte {id} {} {byte:02x}", stream_text(stream)).unwrap();
                    }
                }
                Some(event) => writeln!(out, "{}", event_text(&event, used)).unwrap(),
            }
            piece = rest;
        }
    }
    let within = connection.held > 0 || connection.content > 0 || connection.padding > 0;
    let stop = match connection.open {
        false => "closed",
        true if within => "cut",
        true => "open",
    };
    writeln!(out, "stop {stop}").unwrap();
    out
}
