//! Where a list is malformed: the place of the first pair that cannot be read, in fault 25, in close 14 and in a walk.

mod common;

use common::{fault, record, told, Station, Told, KEEP, PORT};
use compare::answer::{Close, Event, Fault, Refusal, Step};
use compare::console::text::event_text;
use compare::console::Console;
use compare::digest::mixed;
use compare::pairs::{malformed_at, read_pair, Pair, Pairs, Reading};
use compare::replay::replay;
use compare::state::{AREA, QUERY};
use compare::wire::kind::*;

/// Pairs with one length in four bytes, with the other, with both and with none; then an empty name and value.
const FORMS: [&[u8]; 5] = [
    b"\x80\x00\x00\x01\x02A12",
    b"\x01\x80\x00\x00\x03B123",
    b"\x80\x00\x00\x02\x80\x00\x00\x00CC",
    b"\x03\x01DDD9",
    b"\x00\x00",
];

fn malformed(place: usize) -> Fault {
    let place = place as u16;
    Fault::Malformed { place }
}

/// What the end of PARAMS tells about a list that comes in these records.
fn ended(parts: &[&[u8]]) -> Vec<Told> {
    let mut station = Station::new();
    station.open(1, KEEP);
    for part in parts.iter().filter(|part| !part.is_empty()) {
        assert_eq!(station.send(PARAMS, 1, part), []);
    }
    station.send(PARAMS, 1, &[])
}

fn asked(list: &[u8]) -> Vec<Told> {
    Station::new().send(GET_VALUES, 0, list)
}

fn closed(place: usize) -> Vec<Told> {
    let place = place as u16;
    told(Event::Closed(Close::QueryMalformed { place }))
}

/// A list that is cut off anywhere is malformed at the place of the pair that the cut is in.
#[test]
fn wherever_a_list_ends() {
    let list = FORMS.concat();
    let mut starts = vec![0];
    for pair in FORMS {
        starts.push(starts[starts.len() - 1] + pair.len());
    }
    for end in 1..=list.len() {
        let start = *starts.iter().rfind(|&&start| start <= end).unwrap();
        let list = &list[..end];
        if start == end {
            assert_eq!(malformed_at(list), None);
        } else {
            assert_eq!(malformed_at(list), Some(start), "{end}");
            assert_eq!(ended(&[list]), fault(1, malformed(start)));
            assert_eq!(asked(list), closed(start));
        }
    }
    assert_eq!(malformed_at(&[]), None);
}

/// Reading fails in a length or in what comes behind it; the place is that of the pair all the same.
#[test]
fn whatever_cannot_be_read() {
    let bad: [&[u8]; 12] = [
        b"\x0b",
        b"\x80",
        b"\x80\x00\x00",
        b"\xff\xff\xff\xff",
        b"\x0b\x80",
        b"\x0b\x80\x00\x00",
        b"\x80\x00\x00\x0b\x80\x00\x00",
        b"\x0b\x00",
        b"\x0b\x02SERVER_POR",
        b"\x0b\x02SERVER_PORT",
        b"\x0b\x02SERVER_PORT8",
        b"\xff\xff\xff\xff\xff\xff\xff\xffab",
    ];
    for good in [&b""[..], b"\x00\x00", PORT, &FORMS.concat()] {
        for bad in bad {
            let list = [good, bad].concat();
            assert_eq!(ended(&[&list]), fault(1, malformed(good.len())), "{bad:?}");
            assert_eq!(asked(&list), closed(good.len()));
        }
    }
}

/// The first malformed pair counts: it may take in bytes that look like pairs.
#[test]
fn what_looks_like_pairs_behind_it() {
    let list = [PORT, b"\x7f\x00", PORT, PORT, b"\x01"].concat();
    assert_eq!(ended(&[&list]), fault(1, malformed(15)));
    assert_eq!(asked(&list), closed(15));
}

#[test]
fn the_greatest_places() {
    // A pair that fills up to one byte, which is then the start of a malformed one.
    for (size, end) in [(AREA, 0), (AREA, 1), (QUERY, 0), (QUERY, 0x80)] {
        let [_, _, high, low] = (size as u32 - 1 - 6).to_be_bytes();
        let mut list = vec![1, 0x80, 0, high, low, b'n'];
        list.resize(size - 1, b'v');
        list.push(end);
        assert_eq!(malformed_at(&list), Some(size - 1));
        if size == AREA {
            assert_eq!(ended(&[&list]), fault(1, malformed(4_095)));
        } else {
            assert_eq!(asked(&list), closed(511));
        }
    }
    // Two zeros are a pair, so what is left over is the last byte.
    assert_eq!(ended(&[&[0; AREA - 1]]), fault(1, malformed(4_094)));
    assert_eq!(asked(&[0; QUERY - 1]), closed(510));
}

/// The place counts in the list and not in a record, a piece or what other requests sent.
#[test]
fn cut_into_records_and_pieces() {
    let list = [PORT, b"\x01\x00A", &PORT[..14]].concat();
    for first in 0..list.len() {
        for second in first..list.len() {
            let parts = [&list[..first], &list[first..second], &list[second..]];
            assert_eq!(ended(&parts), fault(1, malformed(18)));
        }
        for size in [1, 7, 8, 100] {
            let mut station = Station::new();
            station.open(9, KEEP);
            station.open(1, KEEP);
            let mut bytes = record(PARAMS, 9, PORT);
            for part in [&list[..first.max(1)], &list[first.max(1)..]] {
                bytes.extend(record(PARAMS, 1, part));
                bytes.extend(record(PARAMS, 9, &[0]));
            }
            bytes.extend(record(PARAMS, 1, &[]));
            assert_eq!(station.feed_in(&bytes, size), fault(1, malformed(18)));
            let query = record(GET_VALUES, 0, &list);
            assert_eq!(station.feed_in(&query, size), closed(18));
        }
    }
}

/// No place shows which slot a request has, what the others sent, or what the slot was used for before.
#[test]
fn the_same_in_every_slot() {
    let mut station = Station::new();
    for id in 1..=16 {
        station.open(id, KEEP);
        station.send(PARAMS, id, &FORMS.concat());
    }
    for id in 1..=16 {
        let finished = station
            .connection
            .finish(&mut station.store, id, 0, &mut [0; 24]);
        assert!(finished.is_ok());
        station.open(id, KEEP);
        station.send(PARAMS, id, PORT);
        station.send(PARAMS, id, &PORT[..9]);
        assert_eq!(station.send(PARAMS, id, &[]), fault(id, malformed(15)));
        assert!(station.area(id).iter().all(|&b| b == 0));
    }
}

/// A list that is malformed and repeats a name is fault 25, with the place behind both.
#[test]
fn before_fault_26() {
    let list = [PORT, PORT, b"\x01"].concat();
    assert_eq!(ended(&[&list]), fault(1, malformed(30)));
    assert_eq!(ended(&[PORT, PORT]), fault(1, Fault::Repeated));
}

#[test]
fn reading_on_stays_before_a_malformed_pair() {
    let list = [PORT, b"\x00\x00", &PORT[..14]].concat();
    let mut pairs = Pairs::new(&list);
    let first = pairs.next().unwrap();
    assert_eq!((first.name(&list), first.end()), (&b"SERVER_PORT"[..], 15));
    assert_eq!(pairs.place(), 15);
    assert!(matches!(pairs.read_on(), Reading::Pair(_)));
    for _ in 0..3 {
        assert_eq!(pairs.read_on(), Reading::Malformed { place: 17 });
        assert_eq!(pairs.next(), None);
        assert_eq!(pairs.place(), 17);
    }
    // Any place may be gone to: inside a pair, where other bytes are its lengths, at the end and past it.
    let mut inside = pairs.moved_to(16);
    let found = Pair {
        name_at: 18,
        name_length: 0,
        value_at: 18,
        value_length: 11,
    };
    assert_eq!(inside.read_on(), Reading::Pair(found));
    assert_eq!(inside.read_on(), Reading::Malformed { place: 29 });
    assert_eq!(read_pair(&list, 30), Reading::Malformed { place: 30 });
    for place in [31, 32, usize::MAX] {
        assert_eq!(read_pair(&list, place), Reading::End);
        let mut past = pairs.moved_to(place);
        assert_eq!((past.read_on(), past.place()), (Reading::End, place));
    }
    assert_eq!(read_pair(&[], 0), Reading::End);
}

/// What is poked, how that is repaired, and the walk in between: the length of a name becomes greater, that of a value,
/// or the list becomes shorter.
const DAMAGES: [(&str, &str, &str); 8] = [
    (
        "byte 14 200",
        "byte 14 1",
        "walk 18 2,1,3,1 6,1,7,1 10,3,13,1 malformed at 14",
    ),
    (
        "byte 15 2",
        "byte 15 1",
        "walk 18 2,1,3,1 6,1,7,1 10,3,13,1 malformed at 14",
    ),
    (
        "byte 9 9",
        "byte 9 1",
        "walk 18 2,1,3,1 6,1,7,1 malformed at 8",
    ),
    (
        "length 0 9",
        "length 0 18",
        "walk 9 2,1,3,1 6,1,7,1 malformed at 8",
    ),
    ("length 0 7", "length 0 18", "walk 7 2,1,3,1 malformed at 4"),
    ("byte 1 255", "byte 1 1", "walk 18 malformed at 0"),
    ("length 0 1", "length 0 18", "walk 1 malformed at 0"),
    ("length 0 0", "length 0 18", "walk 0 end 0"),
];

/// A caller changed the store: the pairs before the malformed one are read, and the walk says where that is.
#[test]
fn walks_through_a_damaged_list() {
    let mut console = Console::default();
    let mut answer = |line: &str| console.answer(line.as_bytes());
    answer("start");
    let begin = "01010001000800000001010000000000";
    let list = "010141310101423203014343433301014434";
    let ready = answer(&format!(
        "feed 99 {begin}0104000100120000{list}0104000100000000"
    ));
    assert_eq!(ready, "open 1 responder keep; ready 1 18; used 50");
    let whole = "walk 18 2,1,3,1 6,1,7,1 10,3,13,1 16,1,17,1 end 18";
    assert_eq!(answer("walk 1"), whole);
    for (damage, repair, wanted) in DAMAGES {
        answer(&format!("poke {damage}"));
        assert_eq!(answer("walk 1"), wanted);
        assert_eq!(answer("walk 1"), wanted);
        assert_eq!(answer("pair 1 3"), "refused 7");
        assert_eq!(answer("value 1 44 6e"), "fallback 6e");
        answer(&format!("poke {repair}"));
        assert_eq!(answer("walk 1"), whole);
    }
}

/// The other faults and closes have no place.
#[test]
fn lines_of_faults_and_closes() {
    let line = |event: Event| event_text(&event, &[]);
    let faults = [
        (Fault::BeginAgain, "21"),
        (Fault::OutOfTurn, "22"),
        (Fault::WrongType, "23"),
        (Fault::TooLong, "24"),
        (malformed(0), "25 at 0"),
        (malformed(15), "25 at 15"),
        (Fault::Repeated, "26"),
    ];
    for (fault, text) in faults {
        assert_eq!(
            line(Event::Fault { id: 7, fault }),
            format!("fault 7 {text}")
        );
    }
    let closes = [
        (Close::Version, "11"),
        (Close::BeginLength, "12"),
        (Close::QueryLength, "13"),
        (Close::QueryMalformed { place: 0 }, "14 at 0"),
        (Close::QueryMalformed { place: 511 }, "14 at 511"),
    ];
    for (cause, text) in closes {
        assert_eq!(line(Event::Closed(cause)), format!("closed {text}"));
    }
}

#[test]
fn replayed() {
    let mut capture = record(BEGIN, 1, &KEEP);
    capture.extend(record(PARAMS, 1, PORT));
    capture.extend(record(PARAMS, 1, &PORT[..14]));
    capture.extend(record(PARAMS, 1, &[]));
    capture.extend(record(GET_VALUES, 0, &PORT[..14]));
    capture.extend(record(GET_VALUES, 0, &[]));
    let wanted = "open 1 responder keep\nfault 1 25 at 15\nclosed 14 at 0\nstop closed\n";
    for size in 1..=capture.len() {
        assert_eq!(replay(&capture, size), wanted);
    }
}

/// In the digest the place stands where `ready` has its length.
#[test]
fn in_the_digest() {
    let digest = |event: Event| {
        let event = Some(event);
        mixed(0, &Ok::<_, Refusal>(Step { used: 8, event }))
    };
    let fault = |fault| digest(Event::Fault { id: 3, fault });
    let head = 7 + (3 << 8);
    assert_eq!(fault(malformed(0)), head + (25 << 24));
    assert_eq!(fault(malformed(4_095)), head + (25 << 24) + (4_095 << 32));
    assert_eq!(fault(Fault::Repeated), head + (26 << 24));
    let close = |place| digest(Event::Closed(Close::QueryMalformed { place }));
    assert_eq!(close(0), 10 + (14 << 24));
    assert_eq!(close(511), 10 + (14 << 24) + (511 << 32));
}
