//! Readings: the numbers at each limit, which byte decides a refusal, bodies cut into pieces, and what is written read
//! back.

use compare::random::Random;
use compare::readings::ReadingFault::{self, *};
use compare::readings::ReadingResult::{Nothing, Refused};
use compare::readings::{write, Next, Reader, Reading, ReadingResult, READING};

const NONE: &[u8] = &[];
/// The largest number.
const MOST: [u8; 5] = [0xff, 0xff, 0xff, 0xff, 0x0f];

fn reading(log: u32, tenths: i32, raw: u32) -> Reading {
    Reading { log, tenths, raw }
}

fn given(log: u32, tenths: i32, raw: u32) -> ReadingResult {
    ReadingResult::Reading(reading(log, tenths, raw))
}

fn written(reading: Reading) -> Vec<u8> {
    let mut out = [0; READING];
    let length = write(reading, &mut out).unwrap();
    out[..length].to_vec()
}

/// What a body comes to: its readings, the byte behind the deciding one, the refusal.
#[derive(Debug, PartialEq)]
struct Body {
    readings: Vec<Reading>,
    used: usize,
    end: Result<(), ReadingFault>,
}

/// A body in pieces, all of them tried, also those after a refusal.
fn told<'a>(pieces: impl IntoIterator<Item = &'a [u8]>) -> Body {
    let mut reader = Reader::new();
    let (mut readings, mut used) = (Vec::new(), 0);
    for mut piece in pieces {
        while !piece.is_empty() {
            let (n, result) = reader.read(piece);
            used += n;
            piece = &piece[n..];
            match result {
                Nothing => assert!(piece.is_empty()),
                ReadingResult::Reading(reading) => readings.push(reading),
                Refused(fault) => {
                    assert_eq!(reader.refusal, Some(fault));
                    assert_eq!(reader.read(piece), (0, Refused(fault)));
                    break;
                }
            }
        }
    }
    let end = reader.end();
    Body {
        readings,
        used,
        end,
    }
}

/// The body in one piece.
fn whole(body: &[u8]) -> Body {
    told([body])
}

/// The first call with these bytes.
fn first(bytes: &[u8]) -> (usize, ReadingResult) {
    Reader::new().read(bytes)
}

#[test]
fn the_worked_temperature() {
    assert_eq!(written(reading(1, -184, 5)), [0x01, 0xef, 0x02, 0x05]);
    assert_eq!(first(&[0x01, 0xef, 0x02, 0x05]), (4, given(1, -184, 5)));
}

#[test]
fn temperatures_at_the_limits() {
    for (tenths, sent) in [
        (-600, &[0xaf, 0x09][..]),
        (400, &[0xa0, 0x06]),
        (0, &[0x00]),
        (-1, &[0x01]),
        (1, &[0x02]),
    ] {
        let bytes = [&[0x07], sent, &[0x00]].concat();
        assert_eq!(written(reading(7, tenths, 0)), bytes);
        assert_eq!(first(&bytes), (bytes.len(), given(7, tenths, 0)));
    }
    // -601 is sent as 1201, 401 as 802.
    for (tenths, sent) in [(-601, [0xb1, 0x09]), (401, [0xa2, 0x06])] {
        let bytes = [0x07, sent[0], sent[1], 0x00];
        assert_eq!(write(reading(7, tenths, 0), &mut [0; READING]), Err(33));
        assert_eq!(first(&bytes[..2]), (2, Nothing));
        assert_eq!(first(&bytes), (3, Refused(Temperature)));
    }
    // Between the limits' codes only the odd ones are in range: 801 is -401, and 1200 is 600.
    assert_eq!(first(&[0x07, 0xa1, 0x06, 0x00]), (4, given(7, -401, 0)));
    assert_eq!(first(&[0x07, 0xb0, 0x09]), (3, Refused(Temperature)));
}

#[test]
fn every_temperature_is_written_or_refused() {
    for tenths in -1_000..=1_000 {
        let one = reading(3, tenths, 4);
        if (-600..=400).contains(&tenths) {
            assert_eq!(whole(&written(one)).readings, [one]);
        } else {
            assert_eq!(write(one, &mut [0; READING]), Err(33));
        }
    }
    for tenths in [i32::MIN, i32::MAX] {
        assert_eq!(write(reading(3, tenths, 4), &mut [0; READING]), Err(33));
    }
}

#[test]
fn the_largest_number_and_one_more() {
    let bytes = [&MOST[..], &[0x00], &MOST].concat();
    assert_eq!(written(reading(u32::MAX, 0, u32::MAX)), bytes);
    assert_eq!(first(&bytes), (11, given(u32::MAX, 0, u32::MAX)));
    let more = [0x80, 0x80, 0x80, 0x80, 0x10];
    assert_eq!(first(&more), (5, Refused(TooLarge)));
    let raw = [&[0x01, 0x00][..], &more].concat();
    assert_eq!(first(&raw), (7, Refused(TooLarge)));
}

#[test]
fn the_fifth_byte() {
    for start in [0x80, 0xff] {
        let fifth = |byte| first(&[start, start, start, start, byte, 0x00, 0x00]);
        let low = if start == 0xff { 0x0fff_ffff } else { 0 };
        assert_eq!(fifth(0x0f), (7, given(0xf000_0000 + low, 0, 0)));
        assert_eq!(fifth(0x01), (7, given(0x1000_0000 + low, 0, 0)));
        assert_eq!(fifth(0x00), (5, Refused(NotShortest)));
        for over in 0x10..=0xff {
            assert_eq!(fifth(over), (5, Refused(TooLarge)));
        }
    }
}

#[test]
fn not_the_shortest_form() {
    for extra in 1..=4 {
        for byte in [0x80, 0xff] {
            let mut number = vec![byte; extra];
            number.push(0x00);
            assert_eq!(first(&number[..extra]), (extra, Nothing));
            for before in [NONE, &[0x01], &[0x01, 0x02]] {
                let body = [before, &number, &[0x00; 3]].concat();
                let used = before.len() + number.len();
                assert_eq!(first(&body), (used, Refused(NotShortest)));
            }
        }
    }
}

#[test]
fn a_temperature_shows_the_earlier_refusal() {
    let sent = |number: &[u8]| first(&[&[0x01], number].concat());
    // Five bytes over the limit are 31, five within it 33.
    assert_eq!(
        sent(&[0x80, 0x80, 0x80, 0x80, 0x10]),
        (6, Refused(TooLarge))
    );
    assert_eq!(
        sent(&[0x80, 0x80, 0x80, 0x80, 0x80]),
        (6, Refused(TooLarge))
    );
    assert_eq!(sent(&MOST), (6, Refused(Temperature)));
    // Out of range and overlong at one byte; and out of range is told at the last byte only.
    assert_eq!(sent(&[0xff, 0xff, 0x00]), (4, Refused(NotShortest)));
    assert_eq!(sent(&[0xff, 0xff, 0xff]), (4, Nothing));
    assert_eq!(sent(&[0xff, 0x7f]), (3, Refused(Temperature)));
}

#[test]
fn an_empty_body_is_clean() {
    let mut reader = Reader::new();
    assert_eq!(reader.read(&[]), (0, Nothing));
    assert_eq!(reader.end(), Ok(()));
    assert_eq!(reader, Reader::new());
    // So is one that ends behind a reading, and the next body is read afresh.
    assert_eq!(reader.read(&[0x05, 0x04, 0x06]), (3, given(5, 2, 6)));
    assert_eq!(reader.end(), Ok(()));
    assert_eq!(reader, Reader::new());
    assert_eq!(reader.read(&[0x07, 0x03, 0x08]), (3, given(7, -2, 8)));
}

#[test]
fn a_body_cut_inside_a_reading() {
    let one = reading(u32::MAX, -600, u32::MAX);
    let bytes = written(one);
    assert_eq!(bytes.len(), READING);
    for before in [NONE, &bytes] {
        for n in 1..bytes.len() {
            let body = [before, &bytes[..n]].concat();
            let mut reader = Reader::new();
            if !before.is_empty() {
                assert_eq!(reader.read(&body).1, ReadingResult::Reading(one));
            }
            assert_eq!(reader.read(&bytes[..n]), (n, Nothing));
            assert_eq!(reader.end(), Err(CutShort));
            // It is kept too.
            assert_eq!(reader.read(&bytes[n..]), (0, Refused(CutShort)));
            assert_eq!(reader.end(), Err(CutShort));
        }
    }
}

#[test]
fn a_refusal_is_kept() {
    for (body, fault) in [
        (&[0x80, 0x80, 0x80, 0x80, 0x80][..], TooLarge),
        (&[0x80, 0x00], NotShortest),
        (&[0x01, 0xff, 0x7f], Temperature),
    ] {
        let mut reader = Reader::new();
        assert_eq!(reader.read(body), (body.len(), Refused(fault)));
        for more in [NONE, &[0x01], &[0x01, 0x02, 0x03], &[0xff; 9]] {
            assert_eq!(reader.read(more), (0, Refused(fault)));
        }
        // Not 34, though the body ends inside a reading.
        assert_eq!(reader.end(), Err(fault));
        assert_eq!(reader.read(&[0x01, 0x02, 0x03]), (0, Refused(fault)));
        assert_eq!(reader.end(), Err(fault));
    }
    assert_eq!(
        [TooLarge, NotShortest, Temperature, CutShort].map(|fault| fault as u8),
        [31, 32, 33, 34]
    );
}

#[test]
fn readings_before_a_refusal_are_given() {
    let body = [1, 2, 3, 4, 5, 6, 7, 0x80, 0x00, 8, 9, 10];
    assert_eq!(
        whole(&body),
        Body {
            readings: vec![reading(1, 1, 3), reading(4, -3, 6)],
            used: 9,
            end: Err(NotShortest),
        }
    );
    // The body behind the refusal would be cut short, which it does not say.
    assert_eq!(whole(&body[..10]).end, Err(NotShortest));
    assert_eq!(whole(&body[..8]).end, Err(CutShort));
}

#[test]
fn states_that_no_bytes_lead_to() {
    let poked = |next, count, value| Reader {
        next,
        count,
        value,
        log: 9,
        ..Reader::new()
    };
    for next in [Next::Log, Next::Sent, Next::Raw] {
        for count in [4, 5, 6, 9, 10, 37, 255] {
            let byte = |value, byte: u8| poked(next, count, value).read(&[byte]);
            assert_eq!(byte(0, 0x80), (1, Refused(TooLarge)));
            assert_eq!(byte(0, 0x10), (1, Refused(TooLarge)));
            assert_eq!(byte(0, 0x00), (1, Refused(NotShortest)));
            assert_eq!(byte(0xffff_ffff, 0x01), (1, Refused(TooLarge)));
            assert_eq!(byte(0xffff_ffff, 0x00), (1, Refused(NotShortest)));
            assert_eq!(poked(next, count, 0).end(), Err(CutShort));
        }
        // A sum over the limit shows at a byte that is not the last, too.
        let full = |byte: u8| poked(next, 1, 0xffff_ffff).read(&[byte, 0x00]);
        assert_eq!(full(0x81), (1, Refused(TooLarge)));
        assert_eq!(full(0x80), (2, Refused(NotShortest)));
    }
    let raw = |count, byte: u8| poked(Next::Raw, count, 0).read(&[byte]);
    assert_eq!(raw(4, 0x0f), (1, given(9, 0, 0xf000_0000)));
    assert_eq!(raw(200, 0x0f), (1, given(9, 0, 0xf000_0000)));
    for sent in [0, 1, 802, u32::MAX - 1, u32::MAX] {
        let mut reader = poked(Next::Raw, 0, 0);
        reader.sent = sent;
        assert_eq!(reader.read(&[0x05]).0, 1);
    }
}

#[test]
fn a_buffer_too_short_is_left_alone() {
    let bytes = written(reading(300, -184, 70_000));
    assert_eq!(bytes, [0xac, 0x02, 0xef, 0x02, 0xf0, 0xa2, 0x04]);
    for room in 0..bytes.len() {
        let mut out = vec![0xcc; room];
        assert_eq!(write(reading(300, -184, 70_000), &mut out), Err(6));
        // The temperature is looked at first.
        assert_eq!(write(reading(300, 401, 70_000), &mut out), Err(33));
        assert_eq!(out, vec![0xcc; room]);
    }
    let mut out = [0xcc; READING + 4];
    assert_eq!(write(reading(300, -601, 70_000), &mut out), Err(33));
    assert_eq!(out, [0xcc; READING + 4]);
    // What lies behind the reading stays.
    assert_eq!(write(reading(300, -184, 70_000), &mut out), Ok(7));
    assert_eq!(out[..7], bytes);
    assert_eq!(out[7..], [0xcc; READING - 3]);
}

/// A number of any length, the short ones as often as the long.
fn number(random: &mut Random) -> u32 {
    let bits = random.below(33);
    ((random.draw() >> 32) & ((1 << bits) - 1)) as u32
}

fn random_reading(random: &mut Random) -> Reading {
    let tenths = random.within(0, 1_000) as i32 - 600;
    reading(number(random), tenths, number(random))
}

/// Readings with a byte or two changed, or cut short, or neither.
fn damaged(random: &mut Random) -> Vec<u8> {
    let mut body: Vec<u8> = (0..random.index(6))
        .flat_map(|_| written(random_reading(random)))
        .collect();
    for _ in 0..random.index(3) {
        if !body.is_empty() {
            let at = random.index(body.len());
            body[at] = random.pick(&[0x00, 0x0f, 0x10, 0x7f, 0x80, 0xff]);
        }
    }
    if random.one_in(3) {
        body.truncate(random.within(0, body.len()));
    }
    body
}

#[test]
fn cutting_changes_nothing() {
    let random = &mut Random::new(21);
    let mut seen = [0; 5];
    for _ in 0..4_000 {
        let body = damaged(random);
        let one = whole(&body);
        for size in [1, 2, 3, 5] {
            assert_eq!(told(body.chunks(size)), one, "{body:02x?} by {size}");
        }
        for at in 0..=body.len() {
            let (left, right) = body.split_at(at);
            assert_eq!(told([left, NONE, right]), one, "{body:02x?} at {at}");
        }
        seen[one.end.map_or_else(|fault| fault as usize - 30, |()| 0)] += 1;
    }
    assert!(seen.iter().all(|&n| n > 20), "{seen:?}");
}

#[test]
fn every_cutting_of_short_bodies() {
    for body in [
        &[0x01, 0xef, 0x02, 0x05, 0x06, 0x07, 0x88, 0x01][..],
        &[0x01, 0x02, 0x03, 0x80, 0x80, 0x80, 0x80, 0x10, 0x01],
        &[0x01, 0x02, 0x03, 0x81, 0x01, 0xa2, 0x06, 0x05],
        &[0x01, 0x02, 0x03, 0x81, 0x80, 0x00, 0x01, 0x02],
        &[0x01, 0x02, 0x03, 0x81, 0x01, 0xa1, 0x06, 0x85],
    ] {
        let one = whole(body);
        // Each bit says whether the body is cut behind that byte.
        for cuts in 0..1_u32 << (body.len() - 1) {
            let (mut pieces, mut start) = (Vec::new(), 0);
            for end in 1..=body.len() {
                if end == body.len() || cuts >> (end - 1) & 1 == 1 {
                    pieces.push(&body[start..end]);
                    start = end;
                }
            }
            assert_eq!(told(pieces), one, "{body:02x?} by {cuts:b}");
        }
    }
}

#[test]
fn what_is_written_reads_back() {
    let random = &mut Random::new(2);
    for _ in 0..4_000 {
        let count = random.index(9);
        let readings: Vec<Reading> = (0..count).map(|_| random_reading(random)).collect();
        let body: Vec<u8> = readings.iter().flat_map(|&one| written(one)).collect();
        let used = body.len();
        let all = Body {
            readings,
            used,
            end: Ok(()),
        };
        assert_eq!(whole(&body), all);
        assert_eq!(told(body.chunks(random.within(1, 7))), all);
    }
}
