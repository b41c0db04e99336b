//! The text of an event.

use crate::answer::Output;
use crate::console::words::hex;
use crate::server::answer::Event;

/// The bytes are those of the piece, and the values as they are after the step.
pub fn event_text(event: &Event, piece: &[u8], values: &[u8]) -> String {
    match *event {
        Event::Output { id, stream, count } => {
            format!(
                "output {id} {} {}",
                stream_text(stream),
                hex(&piece[..count])
            )
        }
        Event::Ended { id, stream } => format!("ended {id} {}", stream_text(stream)),
        Event::Finished {
            id,
            app_status,
            protocol_status,
        } => format!("finished {id} {app_status} {protocol_status}"),
        Event::Values { length } => format!("values {}", hex(&values[..length])),
        Event::Unknown { kind } => format!("unknown {kind}"),
        Event::Closed(cause) => format!("closed {}", cause as u8),
    }
}

fn stream_text(stream: Output) -> &'static str {
    match stream {
        Output::Stdout => "stdout",
        Output::Stderr => "stderr",
    }
}
