//! Lifts that are wrong in one way each. A comparison that does not notice one of them is worth little, so `lifts` and
//! the tests try them all.

use super::{records, said, Record, Replay, Said};
use crate::answer::Close;
use crate::wire::{kind, HEADER};

#[derive(Clone, Copy, Debug, PartialEq, Eq)]
pub enum Mistake {
    /// Records are copied with their padding; or only its length is kept, or only its bytes.
    PaddingKept,
    PaddingLengthKept,
    PaddingBytesKept,
    ReservedZeroed,
    /// The copy begins with the id's first record of any type, or behind the BEGIN, or with the last BEGIN.
    BeforeBegin,
    BehindBegin,
    LastBegin,
    /// What is sent while the id is not active is left out: a refused opening, and what follows it.
    ActiveOnly,
    /// The records behind a fault or an abort are left out.
    LiveOnly,
    /// Records of ids with the same low byte, or the same high byte, are copied too; or management records.
    LowByteOfId,
    HighByteOfId,
    ManagementCopied,
    /// Id 0 is lifted like any other.
    ZeroLifted,
    ClosingCopied,
    /// The records behind the closing one are copied.
    PastTheClose,
    /// Of a record that the capture cuts nothing is copied, or the header alone; or its length is made to fit.
    CutDropped,
    CutContentDropped,
    CutLengthMended,
    /// Bytes of a header are copied before it is whole.
    CutHeaderCopied,
    /// A cut there is taken for a clean end.
    CutInHeaderClean,
    CutInPaddingClean,
    /// A capture that closes and goes on to a cut record is said to be cut.
    CutAfterClose,
    /// The offset is behind the byte that decides, counted in the copy, or the place of close 14.
    OffsetOfDecision,
    OffsetInCopy,
    OffsetIsPlace,
    /// A BEGIN of a wrong length closes, also one of an id that is active.
    AnyBeginCloses,
    /// A close by a record that is not the id's is not told.
    OthersCloseUntold,
}

pub const MISTAKES: [Mistake; 27] = [
    Mistake::PaddingKept,
    Mistake::PaddingLengthKept,
    Mistake::PaddingBytesKept,
    Mistake::ReservedZeroed,
    Mistake::BeforeBegin,
    Mistake::BehindBegin,
    Mistake::LastBegin,
    Mistake::ActiveOnly,
    Mistake::LiveOnly,
    Mistake::LowByteOfId,
    Mistake::HighByteOfId,
    Mistake::ManagementCopied,
    Mistake::ZeroLifted,
    Mistake::ClosingCopied,
    Mistake::PastTheClose,
    Mistake::CutDropped,
    Mistake::CutContentDropped,
    Mistake::CutLengthMended,
    Mistake::CutHeaderCopied,
    Mistake::CutInHeaderClean,
    Mistake::CutInPaddingClean,
    Mistake::CutAfterClose,
    Mistake::OffsetOfDecision,
    Mistake::OffsetInCopy,
    Mistake::OffsetIsPlace,
    Mistake::AnyBeginCloses,
    Mistake::OthersCloseUntold,
];

/// What a lift says that makes this mistake, and without one what `said` says.
pub fn mistaken(capture: &[u8], id: u16, mistake: Option<Mistake>) -> Said {
    let is = |other| mistake == Some(other);
    if id == 0 && !is(Mistake::ZeroLifted) {
        return said(capture, id);
    }
    let mut replay = Replay::new();
    let all = records(capture);
    let (mut copy, mut begun, mut closed) = (Vec::new(), is(Mistake::BeforeBegin), None);
    for record in &all {
        let was_open = closed.is_none();
        if was_open {
            let odd = || odd_begin(record).filter(|_| is(Mistake::AnyBeginCloses));
            let cause = replay.close_by(record.bytes).or_else(odd);
            closed = cause.map(|cause| (cause, *record));
        }
        let closing = was_open && closed.is_some();
        if closing && is(Mistake::PastTheClose) {
            continue;
        }
        if closing && !is(Mistake::ClosingCopied) {
            break;
        }
        if is_of(record, id, mistake) {
            let begin = record.bytes[1] == kind::BEGIN;
            if begin && is(Mistake::LastBegin) {
                copy.clear();
            }
            let slot = replay.connection.find(id);
            let left_out = is(Mistake::BehindBegin) && !begun
                || is(Mistake::CutDropped) && !record.is_whole()
                || is(Mistake::ActiveOnly) && slot.is_none()
                || is(Mistake::LiveOnly)
                    && slot.is_some_and(|slot| replay.connection.slots[slot].spent());
            begun |= begin;
            if begun && !left_out {
                copy.extend(taken(record, mistake));
            }
        }
        if closing {
            break;
        }
    }
    let line = line(&all, closed, copy.len(), id, mistake);
    Said { copy, line }
}

/// Close 12 for a BEGIN of a wrong length, without a look at what is active.
fn odd_begin(record: &Record) -> Option<Close> {
    let header = record.header?;
    let odd = header.kind == kind::BEGIN && header.id != 0 && header.content != 8;
    odd.then_some(Close::BeginLength)
}

/// Whether the record is taken for one of that id.
fn is_of(record: &Record, id: u16, mistake: Option<Mistake>) -> bool {
    let Some(bytes) = record.bytes.get(2..4) else {
        return false;
    };
    let whole = record.header.is_some() || mistake == Some(Mistake::CutHeaderCopied);
    let [high, low] = id.to_be_bytes();
    whole
        && match mistake {
            Some(Mistake::LowByteOfId) => bytes[1] == low,
            Some(Mistake::HighByteOfId) => bytes[0] == high,
            Some(Mistake::ManagementCopied) if bytes == [0, 0] => true,
            _ => bytes == [high, low],
        }
}

/// The bytes of a record that go into the copy.
fn taken(record: &Record, mistake: Option<Mistake>) -> Vec<u8> {
    if record.header.is_none() {
        return record.bytes.to_vec();
    }
    let mut bytes = record.unpadded();
    match mistake {
        Some(Mistake::PaddingKept) => bytes = record.bytes.to_vec(),
        Some(Mistake::PaddingLengthKept) => bytes[6] = record.bytes[6],
        Some(Mistake::PaddingBytesKept) => {
            bytes = record.bytes.to_vec();
            bytes[6] = 0;
        }
        Some(Mistake::ReservedZeroed) => bytes[7] = 0,
        Some(Mistake::CutContentDropped) if !record.is_whole() => bytes.truncate(HEADER),
        Some(Mistake::CutLengthMended) => {
            let content = bytes.len() - HEADER;
            bytes[4..6].copy_from_slice(&(content as u16).to_be_bytes());
        }
        _ => {}
    }
    bytes
}

fn line(
    all: &[Record],
    closed: Option<(Close, Record)>,
    copied: usize,
    id: u16,
    mistake: Option<Mistake>,
) -> String {
    let cut = all.last().is_some_and(|record| {
        !record.is_whole()
            && match record.header {
                None => mistake != Some(Mistake::CutInHeaderClean),
                Some(header) => {
                    let in_content = record.bytes.len() < HEADER + usize::from(header.content);
                    in_content || mistake != Some(Mistake::CutInPaddingClean)
                }
            }
    });
    let untold = |record: &Record| {
        mistake == Some(Mistake::OthersCloseUntold) && record.header.is_some_and(|h| h.id != id)
    };
    match closed {
        Some((cause, record))
            if !(cut && mistake == Some(Mistake::CutAfterClose) || untold(&record)) =>
        {
            let content = record.header.map_or(0, |header| header.content.into());
            let offset = match (mistake, cause) {
                (Some(Mistake::OffsetOfDecision), Close::QueryMalformed { .. }) => {
                    record.offset + HEADER + content
                }
                (Some(Mistake::OffsetOfDecision), _) => record.offset + HEADER,
                (Some(Mistake::OffsetInCopy), _) => copied,
                (Some(Mistake::OffsetIsPlace), Close::QueryMalformed { place }) => place.into(),
                _ => record.offset,
            };
            format!("closed {} at {offset}", cause.number())
        }
        _ if cut => "cut".into(),
        _ => "clean".into(),
    }
}
