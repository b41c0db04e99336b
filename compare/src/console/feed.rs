//! Bytes fed in pieces of one size, from event to event, and all that was told as one answer.

use super::text::{content_of, event_text};
use super::words::hex;
use super::Console;
use crate::answer::Event;

impl Console {
    /// A call is lent what is left of its piece. A close, a refusal, or a call that uses nothing ends it.
    pub(super) fn feed(&mut self, size: usize, bytes: &[u8]) -> String {
        let mut told = Told::default();
        let (mut used, mut refusal) = (0, None);
        while used < bytes.len() {
            let end = bytes.len().min((used / size + 1) * size);
            let piece = &bytes[used..end];
            match self.held(|lent| lent.waits.next_event(lent.connection, lent.store, piece)) {
                Ok(step) => {
                    used += step.used;
                    if let Some(event) = step.event {
                        told.add(event, &piece[..step.used]);
                    }
                    if step.used == 0 || matches!(step.event, Some(Event::Closed(_))) {
                        break;
                    }
                }
                Err(text) => {
                    refusal = Some(text);
                    break;
                }
            }
        }
        // A first call that is refused leaves the event as it was.
        if used > 0 || refusal.is_none() {
            self.event = told.last;
        }
        told.texts
            .push(refusal.unwrap_or_else(|| format!("used {used}")));
        told.texts.join("; ")
    }
}

/// What the calls told, data of one stream that follows each other as one.
#[derive(Default)]
struct Told {
    texts: Vec<String>,
    last: Option<Event>,
}

impl Told {
    /// An event, and the bytes that its call used.
    fn add(&mut self, event: Event, used: &[u8]) {
        match (source(self.last.as_ref()), event, self.texts.last_mut()) {
            (Some(before), Event::Data { count, .. }, Some(text))
                if source(Some(&event)) == Some(before) =>
            {
                text.push_str(&hex(content_of(used, count)));
            }
            _ => self.texts.push(event_text(&event, used)),
        }
        self.last = Some(event);
    }
}

/// The request and the stream of data.
fn source(event: Option<&Event>) -> Option<(u16, u8)> {
    match event {
        Some(&Event::Data { id, stream, .. }) => Some((id, stream as u8)),
        _ => None,
    }
}
