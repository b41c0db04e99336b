//! A step of the server's end: the replies of a station, read one phase of one record at a time.

use super::answer::{Close, Event, Refusal, Step};
use super::{Server, Target, BODY, VALUES};
use crate::answer::Output;
use crate::pairs::well_formed;
use crate::wire::{kind, Header, HEADER, VERSION};

impl Server {
    pub fn step(&mut self, piece: &[u8]) -> Result<Step, Refusal> {
        self.admit()?;
        Ok(if piece.is_empty() {
            Step {
                used: 0,
                event: None,
            }
        } else if self.content > 0 {
            self.take_content(piece)
        } else if self.padding > 0 {
            self.take_padding(piece)
        } else {
            self.take_header(piece)
        })
    }

    fn take_padding(&mut self, piece: &[u8]) -> Step {
        let used = at_most(piece, self.padding);
        self.padding -= used as u64;
        Step { used, event: None }
    }

    fn take_header(&mut self, piece: &[u8]) -> Step {
        let held = self.held as usize;
        let used = at_most(piece, (HEADER - held) as u64);
        self.header[held..held + used].copy_from_slice(&piece[..used]);
        self.held += used as u64;
        if held + used < HEADER {
            return Step { used, event: None };
        }
        let header = Header::read(&self.header);
        self.held = 0;
        self.header = [0; HEADER];
        let event = self.judge(header).unwrap_or_else(|cause| {
            self.close();
            Some(Event::Closed(cause))
        });
        Step { used, event }
    }

    /// The eighth header byte is in.
    fn judge(&mut self, header: Header) -> Result<Option<Event>, Close> {
        if header.version != VERSION {
            return Err(Close::Version);
        }
        let event = match header.kind {
            kind::STDOUT => self.judge_output(header, Output::Stdout)?,
            kind::STDERR => self.judge_output(header, Output::Stderr)?,
            kind::END => self.judge_end(header)?,
            kind::UNKNOWN_TYPE => self.judge_unknown(header)?,
            kind::GET_VALUES_RESULT => self.judge_result(header)?,
            _ => return Err(Close::NoReply),
        };
        self.content = header.content.into();
        self.padding = header.padding.into();
        Ok(event)
    }

    fn due(&mut self, target: Target) {
        self.target = target;
        self.gathered = 0;
        self.body = [0; BODY];
    }

    fn judge_output(&mut self, header: Header, stream: Output) -> Result<Option<Event>, Close> {
        let slot = self.find(header.id).ok_or(Close::NotOpen)?;
        let ended = self.slots[slot].ended_mut(stream);
        if *ended {
            return Err(Close::StreamEnded);
        }
        if header.content == 0 {
            *ended = true;
            self.due(Target::Skip);
            let id = header.id;
            return Ok(Some(Event::Ended { id, stream }));
        }
        self.due(match stream {
            Output::Stdout => Target::Stdout(slot as u8),
            Output::Stderr => Target::Stderr(slot as u8),
        });
        Ok(None)
    }

    fn judge_end(&mut self, header: Header) -> Result<Option<Event>, Close> {
        let slot = self.find(header.id).ok_or(Close::NotOpen)?;
        if usize::from(header.content) != BODY {
            return Err(Close::BodyLength);
        }
        self.due(Target::End(slot as u8));
        Ok(None)
    }

    fn judge_unknown(&mut self, header: Header) -> Result<Option<Event>, Close> {
        if header.id != 0 {
            return Err(Close::NotOpen);
        }
        if usize::from(header.content) != BODY {
            return Err(Close::BodyLength);
        }
        self.due(Target::Unknown);
        Ok(None)
    }

    fn judge_result(&mut self, header: Header) -> Result<Option<Event>, Close> {
        if header.id != 0 {
            return Err(Close::NotOpen);
        }
        if usize::from(header.content) > VALUES {
            return Err(Close::Values);
        }
        if header.content == 0 {
            self.due(Target::Skip);
            return Ok(Some(Event::Values { length: 0 }));
        }
        self.due(Target::Values);
        Ok(None)
    }

    fn take_content(&mut self, piece: &[u8]) -> Step {
        let used = at_most(piece, self.content);
        let bytes = &piece[..used];
        let target = self.target;
        self.content -= used as u64;
        let complete = self.content == 0;
        if complete {
            self.target = Target::Skip;
        }
        let event = match target {
            Target::Skip => None,
            Target::Stdout(slot) => Some(self.output(slot, Output::Stdout, used)),
            Target::Stderr(slot) => Some(self.output(slot, Output::Stderr, used)),
            Target::End(slot) => {
                gather(&mut self.body, &mut self.gathered, bytes);
                complete.then(|| self.finish(slot))
            }
            Target::Unknown => {
                gather(&mut self.body, &mut self.gathered, bytes);
                complete.then(|| Event::Unknown { kind: self.body[0] })
            }
            Target::Values => {
                gather(&mut self.values, &mut self.gathered, bytes);
                complete.then(|| self.result())
            }
        };
        Step { used, event }
    }

    fn output(&self, slot: u8, stream: Output, count: usize) -> Event {
        let id = self.slots[usize::from(slot)].id;
        Event::Output { id, stream, count }
    }

    /// An END body is whole: the id is free, whatever the statuses are.
    fn finish(&mut self, slot: u8) -> Event {
        let slot = usize::from(slot);
        let id = self.slots[slot].id;
        self.free(slot);
        let [a, b, c, d, protocol_status, ..] = self.body;
        Event::Finished {
            id,
            app_status: u32::from_be_bytes([a, b, c, d]),
            protocol_status,
        }
    }

    /// A result is whole. What lies behind it in the values is left over from earlier ones.
    fn result(&mut self) -> Event {
        let length = self.gathered as usize;
        if !well_formed(&self.values[..length]) {
            self.close();
            return Event::Closed(Close::Values);
        }
        Event::Values { length }
    }
}

fn at_most(piece: &[u8], needed: u64) -> usize {
    (piece.len() as u64).min(needed) as usize
}

fn gather(body: &mut [u8], gathered: &mut u64, bytes: &[u8]) {
    let from = *gathered as usize;
    body[from..from + bytes.len()].copy_from_slice(bytes);
    *gathered += bytes.len() as u64;
}
