//! The calls that write requests, and the one that counts them. Each tries its rows in the one order; nothing is
//! changed and nothing is written before all of them have passed.

use super::answer::{Input, Refusal};
use super::{Request, Server, BODY, VALUES};
use crate::answer::Role;
use crate::output::{stream_length, CHUNK};
use crate::pairs::{pair_length, well_formed, write_pair, LONGEST};
use crate::state::{Life, Turn};
use crate::wire::{kind, record_length, write_record, KEEP_CONN};

impl Server {
    /// Rows 9 and 1.
    pub(super) fn admit(&self) -> Result<(), Refusal> {
        if !self.in_shape() {
            return Err(Refusal::OutOfShape);
        }
        if !self.open {
            return Err(Refusal::Closed);
        }
        Ok(())
    }

    /// Rows 9, 1 and 3: the slot of an open request.
    fn admit_request(&self, id: u16) -> Result<usize, Refusal> {
        self.admit()?;
        self.find(id).ok_or(Refusal::NotOpen)
    }

    /// Rows 9, 1, 3 and 61: the slot of a request that may write this stream.
    fn admit_input(&self, id: u16, input: Input) -> Result<usize, Refusal> {
        let slot = self.admit_request(id)?;
        let request = &self.slots[slot];
        if request.aborted() || request.turn != input.turn() {
            return Err(Refusal::OutOfTurn);
        }
        Ok(slot)
    }

    /// Writes a BEGIN record.
    pub fn open_request(
        &mut self,
        id: u16,
        role: u16,
        keep: bool,
        buffer: &mut [u8],
    ) -> Result<usize, Refusal> {
        self.admit()?;
        if id == 0 {
            return Err(Refusal::IdZero);
        }
        if self.find(id).is_some() {
            return Err(Refusal::IdOpen);
        }
        let slot = self.lowest_free().ok_or(Refusal::NoSlot)?;
        let role = Role::of(role).ok_or(Refusal::UnknownRole)?;
        fits(record_length(BODY), buffer)?;
        self.occupied |= 1 << slot;
        self.slots[slot] = Request {
            id,
            role,
            keep,
            ..Request::FREE
        };
        let flags = if keep { KEEP_CONN } else { 0 };
        let body = [0, role as u8, flags, 0, 0, 0, 0, 0];
        Ok(write_record(buffer, kind::BEGIN, id, &body))
    }

    /// Writes a pair as PARAMS content. Where it is longer than a record it goes on in the next one.
    pub fn add_pair(
        &mut self,
        id: u16,
        name: &[u8],
        value: &[u8],
        buffer: &mut [u8],
    ) -> Result<usize, Refusal> {
        self.admit_input(id, Input::Params)?;
        if name.len() > LONGEST || value.len() > LONGEST {
            return Err(Refusal::TooLong);
        }
        let mut pair = vec![0; pair_length(name, value)];
        write_pair(&mut pair, name, value).expect("it has the room");
        write_content(buffer, Input::Params, id, &pair)
    }

    /// Writes bytes as content of STDIN or DATA. No bytes write nothing: an empty record would end the stream.
    pub fn write_input(
        &mut self,
        id: u16,
        input: Input,
        data: &[u8],
        buffer: &mut [u8],
    ) -> Result<usize, Refusal> {
        self.admit_input(id, input)?;
        write_content(buffer, input, id, data)
    }

    /// Ends a stream by one empty record; the turn moves on.
    pub fn end_input(
        &mut self,
        id: u16,
        input: Input,
        buffer: &mut [u8],
    ) -> Result<usize, Refusal> {
        let slot = self.admit_input(id, input)?;
        fits(record_length(0), buffer)?;
        self.slots[slot].turn = turn_after(input, self.slots[slot].role);
        Ok(write_record(buffer, input as u8, id, &[]))
    }

    /// Writes an empty ABORT record, whatever the turn is; once.
    pub fn abort_request(&mut self, id: u16, buffer: &mut [u8]) -> Result<usize, Refusal> {
        let slot = self.admit_request(id)?;
        if self.slots[slot].aborted() {
            return Err(Refusal::OutOfTurn);
        }
        fits(record_length(0), buffer)?;
        self.slots[slot].life = Life::Aborted;
        Ok(write_record(buffer, kind::ABORT, id, &[]))
    }

    /// Writes a list of names as one GET_VALUES record. Nothing is remembered of it.
    pub fn ask_values(&self, list: &[u8], buffer: &mut [u8]) -> Result<usize, Refusal> {
        self.admit()?;
        if list.len() > VALUES || !well_formed(list) {
            return Err(Refusal::BadQuery);
        }
        fits(record_length(list.len()), buffer)?;
        Ok(write_record(buffer, kind::GET_VALUES, 0, list))
    }

    pub fn open_count(&self) -> Result<u32, Refusal> {
        self.admit()?;
        Ok(self.occupied.count_ones())
    }
}

/// Row 6.
fn fits(length: usize, buffer: &[u8]) -> Result<(), Refusal> {
    if length > buffer.len() {
        return Err(Refusal::NoRoom);
    }
    Ok(())
}

/// STDIN has the turn after PARAMS (responder and filter), and DATA after STDIN (filter only).
fn turn_after(input: Input, role: Role) -> Turn {
    match (input, role) {
        (Input::Params, Role::Responder | Role::Filter) => Turn::Stdin,
        (Input::Stdin, Role::Filter) => Turn::Data,
        _ => Turn::Done,
    }
}

/// Records of 8,184 content bytes, the last one shorter, each padded.
fn write_content(
    buffer: &mut [u8],
    input: Input,
    id: u16,
    content: &[u8],
) -> Result<usize, Refusal> {
    fits(stream_length(content.len()), buffer)?;
    let mut at = 0;
    for chunk in content.chunks(CHUNK) {
        at += write_record(&mut buffer[at..], input as u8, id, chunk);
    }
    Ok(at)
}
