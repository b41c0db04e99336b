//! Fault 26: a list in which two pairs have the same name, tested when PARAMS end.

mod common;

use common::{fault, record, told, Station, Told, KEEP, PORT};
use compare::answer::{Event, Fault, Named, Output, Refusal, Source};
use compare::pairs::{repeats_a_name, well_formed};
use compare::state::{Life, Turn, AREA};
use compare::wire::kind::*;

/// What the end of PARAMS tells about a list.
fn ended(list: &[u8]) -> Vec<Told> {
    let mut station = Station::new();
    station.open(1, KEEP);
    assert_eq!(station.send(PARAMS, 1, list), []);
    station.send(PARAMS, 1, &[])
}

fn ready(list: &[u8]) -> Vec<Told> {
    let length = list.len() as u16;
    told(Event::Ready { id: 1, length })
}

/// The pairs of these names, each with the value `v`.
fn list_of(names: &[&[u8]]) -> Vec<u8> {
    let mut list = Vec::new();
    for name in names {
        list.extend([name.len() as u8, 1]);
        list.extend(*name);
        list.push(b'v');
    }
    list
}

#[test]
fn names_that_come_twice() {
    let lists: [&[u8]; 10] = [
        // Side by side, and with others between them.
        b"\x04\x02TEMP21\x04\x02TEMP22",
        b"\x04\x02TEMP21\x01\x01AB\x01\x01CD\x04\x02TEMP22",
        // The same value, no value, one of both.
        b"\x04\x02TEMP21\x04\x02TEMP21",
        b"\x04\x00TEMP\x04\x00TEMP",
        b"\x04\x02TEMP21\x04\x00TEMP",
        // Empty names, with values and without: the last is the shortest of all such lists.
        b"\x00\x01a\x01\x00A\x00\x01b",
        b"\x00\x01a\x00\x00",
        b"\x00\x00\x00\x00",
        // Three times; two names twice each.
        b"\x01\x00A\x01\x00A\x01\x00A",
        b"\x01\x00A\x01\x00B\x01\x00B\x01\x00A",
    ];
    for list in lists {
        assert!(well_formed(list) && repeats_a_name(list));
        assert_eq!(ended(list), fault(1, Fault::Repeated), "{list:?}");
    }
}

#[test]
fn names_that_only_look_alike() {
    let lists: [&[&[u8]]; 6] = [
        &[b"TEMP", b"TEMPS", b"TEM", b"T", b""],
        &[b"TEMP", b"temp", b"Temp", b"TEMp"],
        &[b"TEMP", b"TEMQ", b"UEMP", b"PMET"],
        &[b"TEMP", b"TEMP\0", b"\0TEMP", b" TEMP"],
        // A name that is another's value, and the bytes of two names that run together.
        &[b"v", b"vv", b"vvv"],
        &[b""],
    ];
    for names in lists {
        let list = list_of(names);
        assert_eq!(ended(&list), ready(&list), "{names:?}");
    }
    let swapped = b"\x01\x01AB\x01\x01BA";
    assert_eq!(ended(swapped), ready(swapped));
}

/// The form of a length is no part of the name.
#[test]
fn long_and_short_lengths() {
    let long: &[u8] = b"\x80\x00\x00\x04\x80\x00\x00\x02TEMP21";
    let short: &[u8] = b"\x04\x02TEMP22";
    let other: &[u8] = b"\x04\x02TEMQ23";
    for pairs in [[long, short], [short, long], [long, long]] {
        assert_eq!(ended(&pairs.concat()), fault(1, Fault::Repeated));
    }
    let list = [long, other].concat();
    assert_eq!(ended(&list), ready(&list));
    let empty = b"\x80\x00\x00\x00\x00\x00\x01x";
    assert_eq!(ended(empty), fault(1, Fault::Repeated));
}

/// 25 comes before 26, wherever the malformed pair is.
#[test]
fn malformed_lists_that_repeat_a_name() {
    for end in [&b"\x01"[..], b"\x04\x02TEMP2", b"\x80\x00\x00", b"\xff"] {
        let list = [b"\x04\x02TEMP21\x04\x02TEMP22", end].concat();
        assert!(repeats_a_name(&list));
        assert_eq!(ended(&list), fault(1, Fault::Malformed { place: 16 }));
    }
    // The second TEMP is the malformed pair; then it is whole.
    let list = b"\x04\x02TEMP21\x04\x02TEMP22";
    assert!(!repeats_a_name(&list[..15]));
    assert_eq!(ended(&list[..15]), fault(1, Fault::Malformed { place: 8 }));
    assert_eq!(ended(list), fault(1, Fault::Repeated));
}

/// The first name and the last of a full area.
#[test]
fn far_apart() {
    let [_, _, high, low] = (AREA as u32 - 3 - 6 - 3).to_be_bytes();
    let mut list = b"\x01\x00A".to_vec();
    list.extend([1, 0x80, 0, high, low, b'Z']);
    list.resize(AREA - 3, 9);
    list.extend(b"\x01\x00A");
    assert_eq!(list.len(), AREA);
    assert_eq!(ended(&list), fault(1, Fault::Repeated));
    list[AREA - 1] = b'B';
    assert_eq!(ended(&list), ready(&list));
}

/// As many names as an area has room for: an empty one, 256 of one byte, 831 of two.
#[test]
fn many_names() {
    let mut list = vec![0, 0];
    list.extend((0..=255).flat_map(|a| [1, 0, a]));
    list.extend((0..831u16).flat_map(|n| [2, 0, (n >> 8) as u8, n as u8]));
    assert_eq!(list.len(), AREA - 2);
    assert_eq!(ended(&list), ready(&list));
    // The last name becomes the first of two bytes, or one between; then the first becomes the last.
    let (first, last) = (2 + 256 * 3 + 2, list.len() - 2);
    for (place, name) in [(last, 0u16), (last, 300), (first, 830)] {
        let mut other = list.clone();
        other[place..place + 2].copy_from_slice(&name.to_be_bytes());
        assert_eq!(ended(&other), fault(1, Fault::Repeated));
    }
    // Pairs of two zeros: 2,048 empty names.
    assert_eq!(ended(&[0; AREA]), fault(1, Fault::Repeated));
}

/// However the list is cut into records and pieces, the fault comes at the header of the empty record.
#[test]
fn told_at_the_end_of_params() {
    let list = b"\x04\x02TEMP21\x04\x02TEMP22";
    for cut in 1..list.len() {
        for size in [1, 7, 8, 100] {
            let mut station = Station::new();
            station.open(1, KEEP);
            for part in [&list[..cut], &list[cut..]] {
                assert_eq!(station.feed_in(&record(PARAMS, 1, part), size), []);
            }
            let bytes = record(PARAMS, 1, &[]);
            assert_eq!(station.feed_in(&bytes[..7], size), []);
            assert_eq!(&station.area(1)[..16], list);
            assert_eq!(station.feed(&bytes[7..]), fault(1, Fault::Repeated));
        }
    }
    // An abort or another fault that comes before it is the last thing told.
    let mut station = Station::new();
    station.open(1, KEEP);
    station.send(PARAMS, 1, list);
    assert_eq!(station.send(ABORT, 1, &[]), told(Event::Abort { id: 1 }));
    assert_eq!(station.send(PARAMS, 1, &[]), []);
    for (kind, content, first) in [
        (PARAMS, vec![0; AREA], Fault::TooLong),
        (STDIN, vec![], Fault::OutOfTurn),
        (BEGIN, vec![], Fault::BeginAgain),
    ] {
        let mut station = Station::new();
        station.open(1, KEEP);
        station.send(PARAMS, 1, list);
        assert_eq!(station.send(kind, 1, &content), fault(1, first));
        assert_eq!(station.send(PARAMS, 1, &[]), []);
    }
}

/// Request 1 with fault 26, beside request 2, which is ready.
fn repeated() -> Station {
    let mut station = Station::ready(2, KEEP);
    station.open(1, KEEP);
    station.send(PARAMS, 1, b"\x04\x02TEMP21\x04\x02TEMP22");
    assert_eq!(station.send(PARAMS, 1, &[]), fault(1, Fault::Repeated));
    station
}

/// It acts like the other faults.
#[test]
fn what_is_left_of_the_request() {
    let mut station = repeated();
    let request = station.connection.slots[1];
    assert_eq!((request.length, request.life), (0, Life::Faulted));
    assert_eq!((request.id, request.keep), (1, true));
    assert_eq!(request.turn, Turn::Params);
    assert!(station.area(1).iter().all(|&b| b == 0));
    let other = Station::ready(2, KEEP).connection.slots[0];
    assert_eq!(station.connection.slots[0], other);
    assert_eq!(&station.area(2)[..15], PORT);
    // Nothing more is told about it.
    for kind in 0..=255 {
        assert_eq!(station.send(kind, 1, b"\x01\x00A"), []);
        assert_eq!(station.send(kind, 1, &[]), []);
    }
    assert_eq!(station.connection.slots[1], request);
    assert!(station.area(1).iter().all(|&b| b == 0));
}

#[test]
fn calls_after_it() {
    let mut station = repeated();
    let Station { connection, store } = &mut station;
    assert_eq!(connection.value(store, 1, b"TEMP", b"none"), b"none");
    let source = connection.value_source(store, 1, b"TEMP");
    assert_eq!(source, Err(Refusal::NotReady));
    assert_eq!(connection.pair_at(store, 1, 0), Err(Refusal::NotReady));
    assert_eq!(connection.walk(store, 1).err(), Some(Refusal::NotReady));
    let source = connection.value_source(store, 2, b"SERVER_PORT");
    assert_eq!(source, Ok(Source::Store));
    let mut buffer = [0; 32];
    let said = connection.say(1, Output::Stdout, b"x", &mut buffer);
    assert_eq!(said, Ok(16));
    let finished = connection.finish(store, 1, 0, &mut buffer).unwrap();
    assert_eq!((finished.wrote, finished.closed), (24, false));
    // The id is opened anew, with a list of its own.
    station.open(1, KEEP);
    assert_eq!(station.send(PARAMS, 1, &[]), ready(&[]));
}

/// A query may name a variable twice.
#[test]
fn queries_are_not_affected() {
    let mut station = Station::new();
    let list = b"\x0d\x00FCGI_MAX_REQS\x0d\x01FCGI_MAX_REQS7\x00\x00\x00\x00";
    let named = Named {
        max_reqs: true,
        ..Named::default()
    };
    assert!(repeats_a_name(list));
    assert_eq!(station.send(GET_VALUES, 0, list), told(Event::Query(named)));
    let none = Event::Query(Named::default());
    assert_eq!(station.send(GET_VALUES, 0, &[0; 512]), told(none));
}
