//! The commands of what waits: it is queued, pumped out and looked at.

use super::words::{bytes, hex, id, number, room};
use super::{output, wrote_text, Console, FILL, WHOLE_QUEUE};
use crate::queue::Ends;

impl Console {
    /// None for words that are no command of these.
    pub(super) fn queue_command(&mut self, words: &[&str]) -> Option<String> {
        Some(match *words {
            ["lend", "queue", n] => {
                self.lent_queue = number(n, WHOLE_QUEUE as u64)? as usize;
                "ok".into()
            }
            ["queue", "say", r, stream, data] => {
                let (r, output, data) = (id(r)?, output(stream)?, bytes(data)?);
                queued(self.held(|lent| {
                    lent.waits
                        .queue_say(lent.connection, lent.queue, r, output, &data)
                }))
            }
            ["queue", "end", r, stream] => {
                let (r, output) = (id(r)?, output(stream)?);
                queued(self.held(|lent| lent.waits.queue_end(lent.connection, r, output)))
            }
            ["queue", "finish", r, status] => {
                let (r, status) = (id(r)?, number(status, u32::MAX.into())? as u32);
                queued(self.held(|lent| lent.waits.queue_finish(lent.connection, r, status)))
            }
            ["pump", allowance, size] => self.pump(number(allowance, u64::MAX)?, room(size)?),
            ["waits", r] => self.what_waits(id(r)?),
            ["numbers"] => {
                let numbers = self.waits.numbers.map(|n| n.to_string());
                format!("numbers {}", numbers.join(" "))
            }
            _ => return None,
        })
    }

    fn pump(&mut self, allowance: u64, room: usize) -> String {
        let mut buffer = vec![FILL; room];
        let pumped = self.held(|lent| {
            lent.waits.pump(
                lent.connection,
                lent.store,
                lent.queue,
                allowance,
                &mut buffer,
            )
        });
        match pumped {
            Ok(pumped) => {
                let end = if pumped.closed { " closed" } else { " open" };
                let text = wrote_text(Ok(pumped.wrote), &buffer, end);
                text.replacen("wrote", &format!("pumped {}", pumped.records), 1)
            }
            Err(text) => wrote_text(Err(text), &buffer, ""),
        }
    }

    /// For any state, so it can be asked of one that is out of shape too.
    fn what_waits(&self, id: u16) -> String {
        let Some(slot) = self.connection.find(id) else {
            return "none".into();
        };
        let ends = match self.waits.front(slot) {
            Ends::None => "-",
            Ends::Out => "out",
            Ends::Err => "err",
            Ends::OutErr => "out,err",
            Ends::ErrOut => "err,out",
        };
        let status = self.waits.status(slot);
        let status = status.map_or("-".into(), |status| status.to_string());
        let places = self.waits.places(slot);
        format!(
            "waits {} {ends} {status} {} {}",
            self.waits.count(slot),
            hex(&self.queue[places.clone()]),
            hex(&self.waits.marks[places])
        )
    }
}

fn queued(answer: Result<(), String>) -> String {
    match answer {
        Ok(()) => "waits".into(),
        Err(text) => text,
    }
}
