//! Readings in the body of a request, and their correction.

use crate::codes::{CorrectionFault, ReadingFault, Refusal};
use crate::ffi;

/// A log's reading.
#[derive(Clone, Copy, Debug, PartialEq, Eq)]
pub struct Reading {
    /// The log.
    pub log: u32,
    /// The temperature in tenths of a degree, -600 to 400.
    pub tenths: i32,
    /// The raw count.
    pub raw: u32,
}

/// Reads the readings of a body, whatever pieces it comes in.
///
/// ```
/// use yotnaghez::{Reader, Reading};
///
/// let body = [0x11, 0xef, 0x02, 0xb0, 0x09];
/// let mut reader = Reader::new();
/// let mut piece = &body[..2]; // log 17, and the first byte of -18.4 degrees
/// assert_eq!(reader.read(&mut piece), Ok(None));
/// let mut piece = &body[2..];
/// let reading = Reading { log: 17, tenths: -184, raw: 1200 };
/// assert_eq!(reader.read(&mut piece), Ok(Some(reading)));
/// assert_eq!(reader.end(), Ok(()));
/// ```
#[derive(Clone, Copy, Debug, PartialEq, Eq)]
pub struct Reader {
    reader: ffi::Reader,
}

impl Default for Reader {
    fn default() -> Self {
        Reader::new()
    }
}

impl Reader {
    /// A reader at the start of a body.
    pub fn new() -> Self {
        // SAFETY: the call takes nothing.
        let reader = unsafe { ffi::yot_new_reader() };
        Reader { reader }
    }

    /// Reads on to the next reading and moves the piece past it. None at the end of the piece. A body that is refused
    /// stays refused; the piece is then moved past the byte that decided.
    pub fn read(&mut self, piece: &mut &[u8]) -> Result<Option<Reading>, ReadingFault> {
        // SAFETY: the bytes are lent with their length.
        let read = unsafe { ffi::yot_read_reading(self.reader, piece.as_ptr(), piece.len()) };
        self.reader = read.reader;
        *piece = &piece[read.used..];
        match read.refusal {
            0 => Ok((read.kind == 1).then_some(Reading {
                log: read.log,
                tenths: read.tenths,
                raw: read.raw,
            })),
            number => Err(ReadingFault::told(number)),
        }
    }

    /// The body ends. Afterwards the reader is ready for the next one, unless the body was refused.
    pub fn end(&mut self) -> Result<(), ReadingFault> {
        // SAFETY: the call takes numbers.
        let ended = unsafe { ffi::yot_end_body(self.reader) };
        self.reader = ended.reader;
        match ended.refusal {
            0 => Ok(()),
            number => Err(ReadingFault::told(number)),
        }
    }
}

/// Why a reading is not written.
#[derive(Clone, Copy, Debug, PartialEq, Eq)]
pub enum Unwritten {
    /// Its temperature is out of range.
    Reading(ReadingFault),
    /// The buffer is too short.
    Room(Refusal),
}

impl Unwritten {
    /// The number that the rules have for it.
    pub fn number(self) -> u8 {
        match self {
            Unwritten::Reading(fault) => fault.number(),
            Unwritten::Room(refusal) => refusal.number(),
        }
    }
}

/// Writes a reading at the start of a buffer: 3 to 12 bytes.
pub fn write_reading(out: &mut [u8], reading: Reading) -> Result<usize, Unwritten> {
    let Reading { log, tenths, raw } = reading;
    // SAFETY: the buffer is lent with its length.
    let wrote = unsafe { ffi::yot_write_reading(out.as_mut_ptr(), out.len(), log, tenths, raw) };
    match wrote.refusal {
        0 => Ok(wrote.written),
        33 => Err(Unwritten::Reading(ReadingFault::OutOfRange)),
        number => Err(Unwritten::Room(Refusal::told(number))),
    }
}

/// A calibration card.
#[derive(Clone, Copy, Debug, PartialEq)]
pub enum Card {
    /// For temperatures from zero up.
    Thawed {
        /// The card's serial number.
        serial: u32,
        /// What is added to a raw count.
        offset: f64,
    },
    /// For temperatures below zero.
    Frozen {
        /// The card's serial number.
        serial: u32,
        /// What the degrees are multiplied by.
        slope: f64,
        /// What is added then.
        offset: f64,
    },
}

impl Card {
    fn numbers(self) -> ffi::Card {
        match self {
            Card::Thawed { serial, offset } => ffi::Card {
                first: offset,
                second: 0.0,
                serial,
                kind: 1,
            },
            Card::Frozen {
                serial,
                slope,
                offset,
            } => ffi::Card {
                first: slope,
                second: offset,
                serial,
                kind: 2,
            },
        }
    }
}

/// A raw count at a temperature in tenths of a degree, corrected by a thawed and a frozen card.
///
/// ```
/// use yotnaghez::{correct, Card};
///
/// let thawed = Card::Thawed { serial: 1, offset: -2.5 };
/// let frozen = Card::Frozen { serial: 2, slope: 0.125, offset: 4.0 };
/// assert_eq!(correct(thawed, frozen, 215, 903), Ok(900.5));
/// assert_eq!(correct(frozen, thawed, 215, 903).unwrap_err().number(), 43);
/// ```
pub fn correct(thawed: Card, frozen: Card, tenths: i32, raw: u32) -> Result<f64, CorrectionFault> {
    // SAFETY: the call takes numbers.
    let corrected = unsafe { ffi::yot_correct(thawed.numbers(), frozen.numbers(), tenths, raw) };
    match corrected.refusal {
        0 => Ok(corrected.count),
        number => Err(CorrectionFault::told(number)),
    }
}
