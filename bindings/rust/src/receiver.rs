//! Every call of the library, over memory of its own.

use crate::answers::{Finished, Pair, Pumped, RequestInfo, Step};
use crate::codes::{Output, Refusal};
use crate::event::Event;
use crate::ffi;

/// The receiver of one connection with all of its memory, some 97 KB on the heap.
///
/// Its methods are the calls of `docs/CALLS.md`, one for one, and write into buffers of the caller's.
/// [`Connection`](crate::Connection) does the same with less to take care of.
pub struct Receiver {
    m: Box<Memory>,
}

struct Memory {
    state: ffi::State,
    waits: [u16; ffi::WAITS],
    gathered: [u8; ffi::QUERY],
    marks: [u8; ffi::QUEUE],
    queue: [u8; ffi::QUEUE],
    store: [u8; ffi::STORE],
}

/// No refusal, or the one that a number says.
fn passed(refusal: u8) -> Result<(), Refusal> {
    match refusal {
        0 => Ok(()),
        number => Err(Refusal::told(number)),
    }
}

impl Default for Receiver {
    fn default() -> Self {
        Receiver::new()
    }
}

impl Receiver {
    /// The receiver of an open connection with no requests.
    pub fn new() -> Self {
        // SAFETY: a state is numbers and arrays, and zeros are some. The call below puts a true one in its place.
        let state = unsafe { std::mem::zeroed() };
        let mut receiver = Receiver {
            m: Box::new(Memory {
                state,
                waits: [0; ffi::WAITS],
                gathered: [0; ffi::QUERY],
                marks: [0; ffi::QUEUE],
                queue: [0; ffi::QUEUE],
                store: [0; ffi::STORE],
            }),
        };
        receiver.restart();
        receiver
    }

    /// Forgets all that was, for a new connection.
    pub fn restart(&mut self) {
        let m = &mut *self.m;
        // SAFETY: the store is lent with its length, the others have their sizes.
        let started = unsafe {
            let (gathered, waits) = (m.gathered.as_mut_ptr(), m.waits.as_mut_ptr());
            ffi::yot_start(m.store.as_mut_ptr(), m.store.len(), gathered, waits)
        };
        m.state = started.state;
    }

    /// Whether the connection is open.
    pub fn is_open(&self) -> bool {
        self.m.state.open == 1
    }

    /// One step over a piece. Refused by `Closed`.
    pub fn step<'p>(&mut self, piece: &'p [u8]) -> Result<Step<'p>, Refusal> {
        self.read(ffi::yot_step, piece)
    }

    /// As many steps as it takes to come to an event or to the end of the piece. Refused by `Closed`.
    pub fn next_event<'p>(&mut self, piece: &'p [u8]) -> Result<Step<'p>, Refusal> {
        self.read(ffi::yot_next_event, piece)
    }

    #[allow(clippy::type_complexity)]
    fn read<'p>(
        &mut self,
        call: unsafe extern "C" fn(
            ffi::State,
            *mut u8,
            usize,
            *mut u8,
            *mut u16,
            *const u8,
            usize,
        ) -> ffi::Stepped,
        piece: &'p [u8],
    ) -> Result<Step<'p>, Refusal> {
        let m = &mut *self.m;
        // SAFETY: each slice is lent with its length, each array has its size, and no two of them overlap.
        let stepped = unsafe {
            call(
                m.state,
                m.store.as_mut_ptr(),
                m.store.len(),
                m.gathered.as_mut_ptr(),
                m.waits.as_mut_ptr(),
                piece.as_ptr(),
                piece.len(),
            )
        };
        m.state = stepped.state;
        passed(stepped.refusal)?;
        Ok(Step {
            used: stepped.used,
            event: Event::told(stepped.event, &piece[..stepped.used]),
        })
    }

    /// The value of a parameter. Refused by `Closed`, `NotActive`, `NotReady`.
    pub fn value(&self, id: u16, name: &[u8]) -> Result<Option<&[u8]>, Refusal> {
        let m = &*self.m;
        // SAFETY: as above; the call only reads.
        let place = unsafe {
            let (store, waits) = (m.store.as_ptr(), m.waits.as_ptr());
            let (name, length) = (name.as_ptr(), name.len());
            ffi::yot_value(m.state, waits, store, m.store.len(), id, name, length)
        };
        passed(place.refusal)?;
        let value = &m.store[place.offset..place.offset + place.length];
        Ok((place.found == 1).then_some(value))
    }

    /// The whole list of a request's parameters, as the web server wrote it. Refused as [`value`](Self::value) is.
    pub fn list(&self, id: u16) -> Result<&[u8], Refusal> {
        let m = &*self.m;
        // SAFETY: as above; the call only reads.
        let place = unsafe {
            let (store, waits) = (m.store.as_ptr(), m.waits.as_ptr());
            ffi::yot_list(m.state, waits, store, m.store.len(), id)
        };
        passed(place.refusal)?;
        Ok(&m.store[place.offset..place.offset + place.length])
    }

    /// The parameter of number k, counted from 0. Refused as [`value`](Self::value) is, and by `NoPair`.
    pub fn pair_at(&self, id: u16, k: usize) -> Result<Pair<'_>, Refusal> {
        let m = &*self.m;
        // SAFETY: as above; the call only reads.
        let pair = unsafe {
            let (store, waits) = (m.store.as_ptr(), m.waits.as_ptr());
            ffi::yot_pair_at(m.state, waits, store, m.store.len(), id, k)
        };
        passed(pair.refusal)?;
        Ok(Pair::told(self.list(id)?, pair))
    }

    /// The parameters in order. Refused as [`value`](Self::value) is.
    pub fn pairs(&self, id: u16) -> Result<Pairs<'_>, Refusal> {
        Ok(Pairs {
            receiver: self,
            list: self.list(id)?,
            id,
            place: 0,
        })
    }

    /// What a request is. Refused by `Closed`, `NotActive`.
    pub fn request(&self, id: u16) -> Result<RequestInfo, Refusal> {
        let m = &*self.m;
        // SAFETY: the numbers have their size; the call only reads.
        let r = unsafe { ffi::yot_request(m.state, m.waits.as_ptr(), id) };
        passed(r.refusal)?;
        Ok(RequestInfo::told(r))
    }

    /// How many requests are active. Refused by `Closed`.
    pub fn active_count(&self) -> Result<u32, Refusal> {
        let m = &*self.m;
        // SAFETY: the numbers have their size; the call only reads.
        let n = unsafe { ffi::yot_active_count(m.state, m.waits.as_ptr()) };
        passed(n.refusal)?;
        Ok(n.count)
    }

    /// Bytes of a request's output come to wait: all of them, or none where there is no room for all, which is
    /// `Waiting`. Refused by `Closed`, `NotActive`, `NotReady`, `Ended`, `Waiting`.
    pub fn queue_output(&mut self, id: u16, output: Output, bytes: &[u8]) -> Result<(), Refusal> {
        let m = &mut *self.m;
        // SAFETY: each slice is lent with its length, each array has its size, and no two of them overlap.
        let queued = unsafe {
            ffi::yot_queue_output(
                m.state,
                m.waits.as_mut_ptr(),
                m.marks.as_mut_ptr(),
                m.queue.as_mut_ptr(),
                m.queue.len(),
                id,
                output.number(),
                bytes.as_ptr(),
                bytes.len(),
            )
        };
        m.state = queued.state;
        passed(queued.refusal)
    }

    /// The end of an output stream comes to wait. Refused by `Closed`, `NotActive`, `NotReady`, `Ended`.
    pub fn queue_end(&mut self, id: u16, output: Output) -> Result<(), Refusal> {
        let m = &mut *self.m;
        // SAFETY: each array has its size, and they do not overlap.
        let queued = unsafe {
            let (waits, marks) = (m.waits.as_mut_ptr(), m.marks.as_mut_ptr());
            ffi::yot_queue_end(m.state, waits, marks, id, output.number())
        };
        m.state = queued.state;
        passed(queued.refusal)
    }

    /// The end of a request comes to wait, with an application status. Refused by `Closed`, `NotActive`, `Ended`.
    pub fn queue_finish(&mut self, id: u16, status: u32) -> Result<(), Refusal> {
        let m = &mut *self.m;
        // SAFETY: each array has its size, and they do not overlap.
        let queued = unsafe {
            let (waits, marks) = (m.waits.as_mut_ptr(), m.marks.as_mut_ptr());
            ffi::yot_queue_finish(m.state, waits, marks, id, status)
        };
        m.state = queued.state;
        passed(queued.refusal)
    }

    /// Writes at most so many records of what waits, in turns. The buffer needs 520 bytes for each record that is
    /// allowed. Refused by `Closed`, `NoRoom`.
    pub fn pump(&mut self, allowance: usize, out: &mut [u8]) -> Result<Pumped, Refusal> {
        let m = &mut *self.m;
        // SAFETY: each slice is lent with its length, each array has its size, and no two of them overlap.
        let pumped = unsafe {
            ffi::yot_pump(
                m.state,
                m.store.as_mut_ptr(),
                m.store.len(),
                m.waits.as_mut_ptr(),
                m.marks.as_mut_ptr(),
                m.queue.as_mut_ptr(),
                m.queue.len(),
                allowance,
                out.as_mut_ptr(),
                out.len(),
            )
        };
        m.state = pumped.state;
        passed(pumped.refusal)?;
        Ok(Pumped {
            records: pumped.records,
            written: pumped.written,
            closed: pumped.closed == 1,
        })
    }

    /// Bytes of a request's output, straight into a buffer. Refused by `Closed`, `NotActive`, `NotReady`, `Ended`,
    /// `NoRoom`, and by `Waiting` while anything of the request waits.
    pub fn write_output(
        &mut self,
        id: u16,
        output: Output,
        bytes: &[u8],
        out: &mut [u8],
    ) -> Result<usize, Refusal> {
        let m = &mut *self.m;
        // SAFETY: each slice is lent with its length, the numbers have their size, and no two of them overlap.
        let written = unsafe {
            ffi::yot_write_output(
                m.state,
                m.waits.as_ptr(),
                id,
                output.number(),
                bytes.as_ptr(),
                bytes.len(),
                out.as_mut_ptr(),
                out.len(),
            )
        };
        m.state = written.state;
        passed(written.refusal)?;
        Ok(written.written)
    }

    /// The end of an output stream, straight into a buffer: eight bytes. Refused as
    /// [`write_output`](Self::write_output) is.
    pub fn end_output(
        &mut self,
        id: u16,
        output: Output,
        out: &mut [u8],
    ) -> Result<usize, Refusal> {
        let m = &mut *self.m;
        // SAFETY: the buffer is lent with its length, and the numbers have their size.
        let written = unsafe {
            let (out, length) = (out.as_mut_ptr(), out.len());
            ffi::yot_end_output(m.state, m.waits.as_ptr(), id, output.number(), out, length)
        };
        m.state = written.state;
        passed(written.refusal)?;
        Ok(written.written)
    }

    /// The end of a request, straight into a buffer: at most 32 bytes. Refused by `Closed`, `NotActive`, `Ended`,
    /// `NoRoom`, `Waiting`.
    pub fn finish(&mut self, id: u16, status: u32, out: &mut [u8]) -> Result<Finished, Refusal> {
        let m = &mut *self.m;
        // SAFETY: each slice is lent with its length, the numbers have their size, and no two of them overlap.
        let finished = unsafe {
            let (waits, store, size) = (m.waits.as_mut_ptr(), m.store.as_mut_ptr(), m.store.len());
            let (out, length) = (out.as_mut_ptr(), out.len());
            ffi::yot_finish(m.state, waits, store, size, id, status, out, length)
        };
        m.state = finished.state;
        passed(finished.refusal)?;
        Ok(Finished {
            written: finished.written,
            closed: finished.closed == 1,
        })
    }
}

/// The parameters of a request, in order.
#[derive(Clone)]
pub struct Pairs<'a> {
    receiver: &'a Receiver,
    list: &'a [u8],
    id: u16,
    place: usize,
}

impl<'a> Iterator for Pairs<'a> {
    type Item = Pair<'a>;

    fn next(&mut self) -> Option<Pair<'a>> {
        let m = &*self.receiver.m;
        // SAFETY: the store is lent with its length and the numbers have their size; the call only reads.
        let pair = unsafe {
            let (store, waits) = (m.store.as_ptr(), m.waits.as_ptr());
            ffi::yot_pair_from(m.state, waits, store, m.store.len(), self.id, self.place)
        };
        if pair.kind != 1 {
            return None;
        }
        self.place = pair.next;
        Some(Pair::told(self.list, pair))
    }
}

/// Writes the reply that an event owes the web server, which is to be sent at once; no bytes for an event that owes
/// none. The longest has 64 bytes. Refused by `NoRoom`.
pub fn owed_reply(event: &Event, out: &mut [u8]) -> Result<usize, Refusal> {
    // SAFETY: the buffer is lent with its length.
    let wrote = unsafe { ffi::yot_owed_reply(event.numbers(), out.as_mut_ptr(), out.len()) };
    passed(wrote.refusal)?;
    Ok(wrote.written)
}

/// Writes a name-value pair. Refused by `TooLong`, `NoRoom`.
pub fn write_pair(out: &mut [u8], name: &[u8], value: &[u8]) -> Result<usize, Refusal> {
    // SAFETY: each slice is lent with its length, and the one that is written overlaps none.
    let wrote = unsafe {
        let (at, room) = (out.as_mut_ptr(), out.len());
        ffi::yot_write_pair(
            at,
            room,
            name.as_ptr(),
            name.len(),
            value.as_ptr(),
            value.len(),
        )
    };
    passed(wrote.refusal)?;
    Ok(wrote.written)
}
