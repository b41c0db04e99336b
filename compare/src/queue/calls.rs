//! The calls that write for a request: what they say waits, or goes straight out where nothing of the request waits.

use super::ends::mark_of;
use super::{Ends, Waits, END, LOWER, ROOM, UPPER};
use crate::answer::{Finished, Output, Refusal};
use crate::output::stream_length;
use crate::state::{Connection, Life};
use crate::wire::HEADER;

impl Waits {
    /// Rows 9, 1 and 3.
    fn admit_request(&self, connection: &Connection, id: u16) -> Result<usize, Refusal> {
        self.admit_shape(connection)?;
        connection.admit_request(id)
    }

    /// Rows 9, 1, 3, 4 and 5. A request that is leaving says nothing more, whatever its turn is.
    fn admit_output(
        &self,
        connection: &Connection,
        id: u16,
        output: Output,
    ) -> Result<usize, Refusal> {
        let slot = self.admit_staying(connection, id)?;
        connection.admit_output(id, output)?;
        Ok(slot)
    }

    /// Rows 9, 1, 3 and 5 of a finish: the request is not leaving yet.
    fn admit_staying(&self, connection: &Connection, id: u16) -> Result<usize, Refusal> {
        let slot = self.admit_request(connection, id)?;
        if self.leaving(slot) {
            return Err(Refusal::StreamEnded);
        }
        Ok(slot)
    }

    /// Row 10 of the calls that write straight out.
    fn admit_straight(&self, slot: usize) -> Result<(), Refusal> {
        if self.anything(slot) {
            return Err(Refusal::Waiting);
        }
        Ok(())
    }

    /// Data comes to wait behind all that waits for the request.
    pub fn queue_say(
        &mut self,
        connection: &mut Connection,
        queue: &mut [u8],
        id: u16,
        output: Output,
        data: &[u8],
    ) -> Result<(), Refusal> {
        Self::admit_queue(queue)?;
        let slot = self.admit_output(connection, id, output)?;
        let count = self.count(slot);
        if count + data.len() > ROOM {
            return Err(Refusal::Waiting);
        }
        let from = slot * ROOM + count;
        let places = from..from + data.len();
        queue[places.clone()].copy_from_slice(data);
        self.marks[places].fill(mark_of(output));
        self.set(slot, count + data.len(), self.front(slot));
        if output == Output::Stderr && !data.is_empty() {
            connection.slots[slot].err_used = true;
        }
        Ok(())
    }

    pub fn queue_end(
        &mut self,
        connection: &mut Connection,
        id: u16,
        output: Output,
    ) -> Result<(), Refusal> {
        let slot = self.admit_output(connection, id, output)?;
        self.add_end(connection, slot, output);
        Ok(())
    }

    /// The request is spent from now on, and what is left of its record is skipped. It keeps all else until its END
    /// is written.
    pub fn queue_finish(
        &mut self,
        connection: &mut Connection,
        id: u16,
        status: u32,
    ) -> Result<(), Refusal> {
        let slot = self.admit_staying(connection, id)?;
        let request = connection.slots[slot];
        self.set(slot, self.count(slot), self.front(slot));
        for output in request.ends_owed() {
            self.add_end(connection, slot, output);
        }
        self.set_bit(END, slot, true);
        self.numbers[UPPER + slot] = (status >> 16) as u16;
        self.numbers[LOWER + slot] = status as u16;
        if request.life == Life::Live {
            connection.slots[slot].life = Life::Aborted;
        }
        connection.skip_rest(slot);
        Ok(())
    }

    /// An end behind the last byte that waits, or at the front where none does. The stream is ended at once.
    fn add_end(&mut self, connection: &mut Connection, slot: usize, output: Output) {
        let (count, front) = (self.count(slot), self.front(slot));
        let places = self.places(slot);
        match self.marks[places].last_mut() {
            Some(mark) => {
                let ends = Ends::behind(*mark).and(output);
                *mark = *mark % 2 + 2 * ends as u8;
                self.set(slot, count, front);
            }
            None => self.set(slot, 0, front.and(output)),
        }
        connection.slots[slot].end_output(output);
    }

    pub fn say(
        &self,
        connection: &mut Connection,
        id: u16,
        output: Output,
        data: &[u8],
        buffer: &mut [u8],
    ) -> Result<usize, Refusal> {
        let slot = self.admit_output(connection, id, output)?;
        if stream_length(data.len()) > buffer.len() {
            return Err(Refusal::NoRoom);
        }
        self.admit_straight(slot)?;
        connection.say(id, output, data, buffer)
    }

    pub fn end(
        &self,
        connection: &mut Connection,
        id: u16,
        output: Output,
        buffer: &mut [u8],
    ) -> Result<usize, Refusal> {
        let slot = self.admit_output(connection, id, output)?;
        if buffer.len() < HEADER {
            return Err(Refusal::NoRoom);
        }
        self.admit_straight(slot)?;
        connection.end(id, output, buffer)
    }

    pub fn finish(
        &mut self,
        connection: &mut Connection,
        store: &mut [u8],
        id: u16,
        status: u32,
        buffer: &mut [u8],
    ) -> Result<Finished, Refusal> {
        Connection::admit_store(store)?;
        let slot = self.admit_staying(connection, id)?;
        if connection.slots[slot].finish_length() > buffer.len() {
            return Err(Refusal::NoRoom);
        }
        self.admit_straight(slot)?;
        let finished = connection.finish(store, id, status, buffer)?;
        if finished.closed {
            self.drop_all();
        }
        Ok(finished)
    }
}
