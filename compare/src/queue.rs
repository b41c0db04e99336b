//! What waits to be written: data of each request in an area of a lent queue, the ends of its streams and its END. The
//! numbers and the marks say what waits; both are open, so that a state that no calls lead to can be tried too.

mod calls;
mod ends;
mod others;
mod pump;

pub use ends::Ends;
pub use pump::Pumped;

use crate::answer::{Output, Refusal};
use crate::state::{Connection, SLOTS};

/// Bytes of the queue that belong to one slot.
pub const ROOM: usize = 1_024;
pub const QUEUE: usize = SLOTS * ROOM;
pub const NUMBERS: usize = 54;

/// Where the numbers of a slot lie: number `UPPER + i` belongs to slot i.
const UPPER: usize = 16;
const LOWER: usize = 32;
/// Words that have a bit for each slot: whether data, an end at the front or END waits.
const DATA: usize = 48;
const OUT_FRONT: usize = 49;
const ERR_FRONT: usize = 50;
/// Of two ends at the front, STDERR's is the first.
const ERR_FIRST: usize = 51;
const END: usize = 52;
/// The slot that the pump looks at first.
const FIRST: usize = 53;

#[derive(Clone, Debug, PartialEq, Eq)]
pub struct Waits {
    pub numbers: [u16; NUMBERS],
    /// For each byte of the queue its stream and the ends right behind it.
    pub marks: Box<[u8; QUEUE]>,
}

impl Default for Waits {
    fn default() -> Self {
        Waits {
            numbers: [0; NUMBERS],
            marks: Box::new([0; QUEUE]),
        }
    }
}

impl Waits {
    fn bit(&self, word: usize, slot: usize) -> bool {
        self.numbers[word] >> slot & 1 == 1
    }

    fn set_bit(&mut self, word: usize, slot: usize, on: bool) {
        self.numbers[word] = self.numbers[word] & !(1 << slot) | u16::from(on) << slot;
    }

    /// How many data bytes wait. Out of shape they can be more than there is room for.
    pub fn count(&self, slot: usize) -> usize {
        if self.bit(DATA, slot) {
            usize::from(self.numbers[slot]) + 1
        } else {
            0
        }
    }

    /// The ends that wait before all data.
    pub fn front(&self, slot: usize) -> Ends {
        match (self.bit(OUT_FRONT, slot), self.bit(ERR_FRONT, slot)) {
            (false, false) => Ends::None,
            (true, false) => Ends::Out,
            (false, true) => Ends::Err,
            (true, true) if self.bit(ERR_FIRST, slot) => Ends::ErrOut,
            (true, true) => Ends::OutErr,
        }
    }

    /// The application status, if END waits. Then the request is leaving.
    pub fn status(&self, slot: usize) -> Option<u32> {
        let upper = u32::from(self.numbers[UPPER + slot]) << 16;
        let status = upper | u32::from(self.numbers[LOWER + slot]);
        self.leaving(slot).then_some(status)
    }

    pub fn leaving(&self, slot: usize) -> bool {
        self.bit(END, slot)
    }

    /// The slots in which anything waits, as a word.
    pub fn waiting(&self) -> u16 {
        [DATA, OUT_FRONT, ERR_FRONT, END]
            .iter()
            .fold(0, |all, &word| all | self.numbers[word])
    }

    pub fn anything(&self, slot: usize) -> bool {
        self.waiting() >> slot & 1 == 1
    }

    /// The places of a slot's data bytes and of their marks.
    pub fn places(&self, slot: usize) -> std::ops::Range<usize> {
        slot * ROOM..slot * ROOM + self.count(slot).min(ROOM)
    }

    /// Writes the data's and the front's numbers of a slot in their one form.
    fn set(&mut self, slot: usize, count: usize, front: Ends) {
        self.numbers[slot] = count.saturating_sub(1) as u16;
        self.set_bit(DATA, slot, count > 0);
        self.set_bit(OUT_FRONT, slot, front.has(Output::Stdout));
        self.set_bit(ERR_FRONT, slot, front.has(Output::Stderr));
        self.set_bit(ERR_FIRST, slot, front == Ends::ErrOut);
    }

    /// Nothing is left of a slot, not even its status.
    fn clear(&mut self, slot: usize) {
        self.set(slot, 0, Ends::None);
        self.set_bit(END, slot, false);
        self.numbers[UPPER + slot] = 0;
        self.numbers[LOWER + slot] = 0;
    }

    /// A close drops all that waits. Marks stay: nobody reads them.
    fn drop_all(&mut self) {
        self.numbers = [0; NUMBERS];
    }

    /// The part of row 9 that is about what waits.
    pub fn in_shape(&self, connection: &Connection) -> bool {
        self.waiting() & !connection.occupied == 0
            && (0..SLOTS).all(|slot| self.count(slot) <= ROOM)
    }

    /// Row 9 by either of the two.
    fn admit_shape(&self, connection: &Connection) -> Result<(), Refusal> {
        if self.in_shape(connection) {
            Ok(())
        } else {
            Err(Refusal::OutOfShape)
        }
    }

    /// Row 2 of the calls that are lent the queue.
    fn admit_queue(queue: &[u8]) -> Result<(), Refusal> {
        if queue.len() != QUEUE {
            return Err(Refusal::StoreSize);
        }
        Ok(())
    }
}
