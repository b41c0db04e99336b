//! The calls that write for a request: say, end a stream, finish.

use crate::answer::{Finished, Output, Refusal};
use crate::state::{area, Connection, Request, Target};
use crate::wire::{end_body, kind, record_length, write_record, HEADER};

/// Content bytes of a record of output, but for the last.
pub const CHUNK: usize = 8_184;

impl Connection {
    /// Rows 9, 1, 3, 4 and 5: the slot of a request that may write on this stream.
    pub(crate) fn admit_output(&self, id: u16, output: Output) -> Result<usize, Refusal> {
        let slot = self.admit_request(id)?;
        let request = &self.slots[slot];
        if !request.params_ended() && !request.spent() {
            return Err(Refusal::NotReady);
        }
        if request.output_ended(output) {
            return Err(Refusal::StreamEnded);
        }
        Ok(slot)
    }

    /// Writes data as records. Empty data writes nothing: an empty record would end the stream.
    pub fn say(
        &mut self,
        id: u16,
        output: Output,
        data: &[u8],
        buffer: &mut [u8],
    ) -> Result<usize, Refusal> {
        let slot = self.admit_output(id, output)?;
        if stream_length(data.len()) > buffer.len() {
            return Err(Refusal::NoRoom);
        }
        let mut at = 0;
        for chunk in data.chunks(CHUNK) {
            at += write_record(&mut buffer[at..], output as u8, id, chunk);
        }
        if output == Output::Stderr && !data.is_empty() {
            self.slots[slot].err_used = true;
        }
        Ok(at)
    }

    /// Ends a stream by one empty record.
    pub fn end(&mut self, id: u16, output: Output, buffer: &mut [u8]) -> Result<usize, Refusal> {
        let slot = self.admit_output(id, output)?;
        if buffer.len() < HEADER {
            return Err(Refusal::NoRoom);
        }
        self.slots[slot].end_output(output);
        Ok(write_record(buffer, output as u8, id, &[]))
    }

    /// Ends what is open of a request's output, and the request. The slot is given back; without KEEP_CONN the
    /// connection closes.
    pub fn finish(
        &mut self,
        store: &mut [u8],
        id: u16,
        status: u32,
        buffer: &mut [u8],
    ) -> Result<Finished, Refusal> {
        Self::admit_store(store)?;
        let slot = self.admit_request(id)?;
        let request = self.slots[slot];
        if request.finish_length() > buffer.len() {
            return Err(Refusal::NoRoom);
        }
        let mut at = 0;
        for output in request.ends_owed() {
            at += write_record(&mut buffer[at..], output as u8, id, &[]);
        }
        at += write_record(&mut buffer[at..], kind::END, id, &end_body(status, 0));
        if request.keep {
            self.free(slot, store);
        } else {
            self.close(store);
        }
        Ok(Finished {
            wrote: at,
            closed: !request.keep,
        })
    }

    /// The slot is given back.
    pub(crate) fn free(&mut self, slot: usize, store: &mut [u8]) {
        self.occupied &= !(1 << slot);
        self.slots[slot] = Request::FREE;
        store[area(slot)].fill(0);
        self.skip_rest(slot);
    }

    /// What is left of a record for this slot has nowhere to go any more. Held header bytes stay: their record is
    /// judged when its header is whole.
    pub(crate) fn skip_rest(&mut self, slot: usize) {
        if self.target.slot().map(usize::from) == Some(slot) {
            self.target = Target::Skip;
        }
    }
}

impl Request {
    /// The ends that a finish writes, STDOUT's first. STDERR that was neither used nor ended gets none.
    pub(crate) fn ends_owed(&self) -> impl Iterator<Item = Output> {
        let out = (!self.out_ended).then_some(Output::Stdout);
        let err = (self.err_used && !self.err_ended).then_some(Output::Stderr);
        out.into_iter().chain(err)
    }

    /// The bytes that a finish takes.
    pub(crate) fn finish_length(&self) -> usize {
        HEADER * self.ends_owed().count() + record_length(8)
    }
}

/// The bytes that so much data takes. The data lies in memory, so its records' headers can't overflow the sum.
pub fn stream_length(data: usize) -> usize {
    let full = data / CHUNK * (HEADER + CHUNK);
    match data % CHUNK {
        0 => full,
        rest => full + record_length(rest),
    }
}
