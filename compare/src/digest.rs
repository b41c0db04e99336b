//! A whole input fed to a fresh connection in pieces of one size, and all that its calls tell mixed into one number, by
//! which two receivers can be compared and the cost of a call be measured. And the same for a reader of readings.

use crate::answer::{Event, Refusal, Step};
use crate::readings::{Reader, Reading, ReadingResult, COLDEST};
use crate::state::Connection;
use std::io::Read;

/// What a piece is gone through by: `step_with` or `next_with`, row 9 tested or left out. The loops are compiled anew
/// for each of them.
pub trait Call: Fn(&mut Connection, &mut [u8], &[u8]) -> Result<Step, Refusal> {}

impl<T: Fn(&mut Connection, &mut [u8], &[u8]) -> Result<Step, Refusal>> Call for T {}

/// The digest has 56 bits.
const MODULUS: u64 = 1 << 56;

/// A kind, an id, a small number, and a length, a place or a word in one number.
fn packed(kind: u8, id: u16, what: u8, n: u16) -> u64 {
    u64::from(kind) + (u64::from(id) << 8) + (u64::from(what) << 24) + (u64::from(n) << 32)
}

fn weight(told: &Result<Step, Refusal>) -> u64 {
    let event = match told {
        Err(refusal) => return packed(11, 0, *refusal as u8, 0),
        Ok(step) => match &step.event {
            None => return packed(0, 0, 0, 0),
            Some(event) => event,
        },
    };
    match *event {
        Event::Open { id, role, keep } => packed(1, id, role as u8, keep.into()),
        Event::Ready { id, length } => packed(2, id, 0, length),
        Event::Data { id, stream, count } => packed(3, id, stream as u8, count as u16),
        Event::End { id, stream, word } => packed(4, id, stream as u8, word as u16),
        Event::Abort { id } => packed(5, id, 0, 0),
        Event::Refuse { id, status } => packed(6, id, status as u8, 0),
        Event::Fault { id, fault } => packed(7, id, fault.number(), fault.place().unwrap_or(0)),
        Event::Query(named) => packed(
            8,
            named.max_conns.into(),
            named.max_reqs.into(),
            named.mpxs_conns.into(),
        ),
        Event::Unknown { kind } => packed(9, 0, kind, 0),
        Event::Closed(cause) => packed(10, 0, cause.number(), cause.place().unwrap_or(0)),
    }
}

/// What was told so far, and what is told now.
pub fn mixed(sum: u64, told: &Result<Step, Refusal>) -> u64 {
    (sum * 33 + weight(told)) % MODULUS
}

/// Feeds a piece call by call, to its end or to a call that uses nothing; answers the digest and whether to go on.
/// Compiled into its callers, so that for pieces of one byte it adds nothing to what is measured.
#[inline(always)]
fn feed(
    call: &impl Call,
    connection: &mut Connection,
    store: &mut [u8],
    mut piece: &[u8],
    mut sum: u64,
) -> (u64, bool) {
    while !piece.is_empty() {
        let told = call(connection, store, piece);
        let used = told.as_ref().map_or(0, |step| step.used);
        if used == 0 {
            return (sum, false);
        }
        sum = mixed(sum, &told);
        piece = &piece[used..];
    }
    (sum, true)
}

/// The digest of an input that a fresh connection is fed in pieces of `piece` bytes.
pub fn digest(call: impl Call, store: &mut [u8], input: &[u8], piece: usize) -> u64 {
    let mut connection = Connection::closed();
    if connection.start(store).is_err() || piece == 0 {
        return 0;
    }
    let mut sum = 0;
    for part in input.chunks(piece) {
        let (next, onward) = feed(&call, &mut connection, store, part, sum);
        sum = next;
        if !onward {
            break;
        }
    }
    sum
}

/// The same of an input that is read to its end; each piece is what one read puts into the buffer. A read that fails
/// counts as the end.
pub fn reading_digest(
    call: impl Call,
    store: &mut [u8],
    buffer: &mut [u8],
    mut input: impl Read,
) -> u64 {
    let mut connection = Connection::closed();
    if connection.start(store).is_err() {
        return 0;
    }
    let (mut sum, mut onward) = (0, true);
    while onward {
        let n = input.read(buffer).unwrap_or(0);
        if n == 0 {
            break;
        }
        (sum, onward) = feed(&call, &mut connection, store, &buffer[..n], sum);
    }
    sum
}

/// A log number, a temperature counted from the coldest on, and a raw count in one number.
fn reading_weight(told: &ReadingResult) -> u64 {
    match *told {
        ReadingResult::Nothing => 0,
        ReadingResult::Reading(Reading { log, tenths, raw }) => {
            let above = (tenths - COLDEST) as u64 % 1024;
            (u64::from(log) + (above << 32) + u64::from(raw) * 7) % (1 << 48)
        }
        ReadingResult::Refused(fault) => fault as u64,
    }
}

/// The digest of a body of readings in pieces of `piece` bytes. As above, a call that uses nothing ends it and does not
/// count.
pub fn readings_digest(input: &[u8], piece: usize) -> u64 {
    if piece == 0 {
        return 0;
    }
    let (mut reader, mut sum) = (Reader::new(), 0);
    for mut rest in input.chunks(piece) {
        while !rest.is_empty() {
            let (used, told) = reader.read(rest);
            if used == 0 {
                return sum;
            }
            sum = (sum * 33 + reading_weight(&told)) % MODULUS;
            rest = &rest[used..];
        }
    }
    sum
}
