//! Bytes fed in pieces of one size, step by step, and all that was told as one answer.

use super::text::event_text;
use super::Bench;
use crate::console::words::hex;
use crate::server::answer::Event;

impl Bench {
    /// A step is lent what is left of its piece. A close, a refusal, or a step that uses nothing ends it.
    pub(super) fn feed(&mut self, size: usize, bytes: &[u8]) -> String {
        let mut told = Told::default();
        let mut used = 0;
        while used < bytes.len() {
            let end = bytes.len().min((used / size + 1) * size);
            let piece = &bytes[used..end];
            let step = match self.held(|server| server.step(piece)) {
                Ok(step) => step,
                Err(text) => return told.ending_in(text),
            };
            used += step.used;
            if let Some(event) = step.event {
                told.add(event, piece, &self.server.values);
            }
            if step.used == 0 || matches!(step.event, Some(Event::Closed(_))) {
                break;
            }
        }
        told.ending_in(format!("used {used}"))
    }
}

/// What the steps told, output of one stream that follows each other as one.
#[derive(Default)]
struct Told {
    texts: Vec<String>,
    last: Option<Event>,
}

impl Told {
    fn add(&mut self, event: Event, piece: &[u8], values: &[u8]) {
        match (source(self.last.as_ref()), event, self.texts.last_mut()) {
            (Some(before), Event::Output { count, .. }, Some(text))
                if source(Some(&event)) == Some(before) =>
            {
                text.push_str(&hex(&piece[..count]));
            }
            _ => self.texts.push(event_text(&event, piece, values)),
        }
        self.last = Some(event);
    }

    fn ending_in(mut self, text: String) -> String {
        self.texts.push(text);
        self.texts.join("; ")
    }
}

/// The request and the stream of output.
fn source(event: Option<&Event>) -> Option<(u16, u8)> {
    match event {
        Some(&Event::Output { id, stream, .. }) => Some((id, stream as u8)),
        _ => None,
    }
}
