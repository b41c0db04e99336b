//! The pump: what waits is written out, a record for each slot that waits and then another round.

use super::ends::stream_of;
use super::{Ends, Waits, FIRST, ROOM};
use crate::answer::Refusal;
use crate::state::{Connection, SLOTS};
use crate::wire::{end_body, kind, record_length, write_record};

/// The most data bytes of a record.
pub const RUN: usize = 512;

/// A turn: the records and the bytes that it wrote, and whether the connection closed by it.
#[derive(Clone, Copy, Debug, PartialEq, Eq)]
pub struct Pumped {
    pub records: u64,
    pub wrote: usize,
    pub closed: bool,
}

impl Waits {
    /// A turn of at most so many records. It stops early only when nothing waits.
    pub fn pump(
        &mut self,
        connection: &mut Connection,
        store: &mut [u8],
        queue: &mut [u8],
        allowance: u64,
        buffer: &mut [u8],
    ) -> Result<Pumped, Refusal> {
        Connection::admit_store(store)?;
        Self::admit_queue(queue)?;
        self.admit_shape(connection)?;
        connection.admit()?;
        // The product of any two such numbers fits.
        if u128::from(allowance) * record_length(RUN) as u128 > buffer.len() as u128 {
            return Err(Refusal::NoRoom);
        }
        let (mut records, mut at) = (0, 0);
        while records < allowance {
            let Some(slot) = self.next_slot() else {
                break;
            };
            self.numbers[FIRST] = ((slot + 1) % SLOTS) as u16;
            at += self.serve(slot, connection, store, queue, &mut buffer[at..]);
            records += 1;
        }
        Ok(Pumped {
            records,
            wrote: at,
            closed: !connection.open,
        })
    }

    /// The first slot in which anything waits, going round from the one after the last served.
    fn next_slot(&self) -> Option<usize> {
        let first = match usize::from(self.numbers[FIRST]) {
            first if first < SLOTS => first,
            _ => 0,
        };
        let round = self.waiting().rotate_right(first as u32);
        (round != 0).then(|| (first + round.trailing_zeros() as usize) % SLOTS)
    }

    /// Writes the record that is next for a slot, and answers its length.
    fn serve(
        &mut self,
        slot: usize,
        connection: &mut Connection,
        store: &mut [u8],
        queue: &mut [u8],
        buffer: &mut [u8],
    ) -> usize {
        let (id, count) = (connection.slots[slot].id, self.count(slot));
        let front = self.front(slot);
        if let Some(output) = front.first() {
            self.set(slot, count, front.rest());
            return write_record(buffer, output as u8, id, &[]);
        }
        if count > 0 {
            return self.serve_data(slot, id, queue, buffer);
        }
        let status = self.status(slot).unwrap_or_default();
        if connection.slots[slot].keep {
            connection.free(slot, store);
            self.clear(slot);
        } else {
            connection.close(store);
            self.drop_all();
        }
        write_record(buffer, kind::END, id, &end_body(status, 0))
    }

    /// A run of data; what is behind it moves down, and the ends behind its last byte come to the front.
    fn serve_data(&mut self, slot: usize, id: u16, queue: &mut [u8], buffer: &mut [u8]) -> usize {
        let places = self.places(slot);
        let run = run(&self.marks[places.clone()]);
        let last = self.marks[places.start + run - 1];
        let data = &queue[places.start..places.start + run];
        let wrote = write_record(buffer, stream_of(last) as u8, id, data);
        let rest = places.start + run..places.end;
        queue.copy_within(rest.clone(), slot * ROOM);
        self.marks.copy_within(rest.clone(), slot * ROOM);
        self.set(slot, rest.len(), Ends::behind(last));
        wrote
    }
}

/// How many bytes from the oldest on are of one stream and have no end between them, up to a record's.
fn run(marks: &[u8]) -> usize {
    let goes_on = |pair: &[u8]| {
        Ends::behind(pair[0]) == Ends::None && stream_of(pair[0]) == stream_of(pair[1])
    };
    let more = marks.windows(2).take(RUN - 1).take_while(|p| goes_on(p));
    1 + more.count()
}
