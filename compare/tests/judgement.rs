//! What a header does, and what comes of faults, aborts, refused openings and closes.

mod common;

use common::{fault, padded, record, role, told, Station, Told, DROP, KEEP, PORT};
use compare::answer::{Close, Event, Fault, Named, Refusal, Role, Status, Stream, Word};
use compare::state::{Life, Turn, AREA, STORE};
use compare::wire::kind::*;

fn open(id: u16, role: Role, keep: bool) -> Vec<Told> {
    told(Event::Open { id, role, keep })
}

fn closed(cause: Close) -> Vec<Told> {
    told(Event::Closed(cause))
}

/// A connection with all slots taken, ids 1 to 16.
fn full() -> Station {
    let mut station = Station::new();
    for id in 1..=16 {
        assert_eq!(station.open(id, KEEP), open(id, Role::Responder, true));
    }
    station
}

#[test]
fn any_other_version_closes() {
    for version in [0, 2, 255] {
        let mut station = Station::ready(1, KEEP);
        let mut bytes = record(STDIN, 1, b"abc");
        bytes[0] = version;
        assert_eq!(station.feed(&bytes), closed(Close::Version));
        assert!(station.store.iter().all(|&b| b == 0));
        assert_eq!(station.connection.active(), Err(Refusal::Closed));
        assert!(station.connection.in_shape());
        assert_eq!(station.step(&[]), Err(Refusal::Closed));
    }
}

#[test]
fn queries() {
    let mut station = Station::new();
    let none = Event::Query(Named::default());
    assert_eq!(station.send(GET_VALUES, 0, &[]), told(none));
    let two = b"\x0e\x00FCGI_MAX_CONNS\x0f\x03FCGI_MPXS_CONNSabc\x0e\x00FCGI_MAX_CONNS\x01\x00x";
    let named = Named {
        max_conns: true,
        max_reqs: false,
        mpxs_conns: true,
    };
    for size in [1, 7, 8, 100] {
        let bytes = padded(GET_VALUES, 0, two, 5);
        assert_eq!(station.feed_in(&bytes, size), told(Event::Query(named)));
    }
    // 512 bytes pass, 513 close at the header; so does a malformed list at its last byte.
    let mut list = vec![1, 0x80, 0, 1, 0xfa, b'n'];
    list.resize(512, 0);
    assert_eq!(station.send(GET_VALUES, 0, &list), told(none));
    let bytes = record(GET_VALUES, 0, &[0; 513]);
    assert_eq!(station.feed(&bytes[..8]), closed(Close::QueryLength));
    let mut station = Station::new();
    let bytes = record(GET_VALUES, 0, &two[..20]);
    assert_eq!(station.feed(&bytes[..27]), []);
    let malformed = Close::QueryMalformed { place: 16 };
    assert_eq!(station.feed(&bytes[27..]), closed(malformed));
}

#[test]
fn management_of_another_type_is_unknown() {
    let mut station = Station::new();
    for kind in (0..=255).filter(|&kind| kind != GET_VALUES) {
        for content in [&b""[..], b"12345678", b"123"] {
            let bytes = padded(kind, 0, content, 3);
            assert_eq!(station.feed(&bytes), told(Event::Unknown { kind }));
        }
    }
}

#[test]
fn inactive_ids() {
    let mut station = Station::new();
    for kind in (0..=255).filter(|&kind| kind != BEGIN) {
        assert_eq!(station.send(kind, 9, b"12345678"), []);
    }
    for length in [0, 7, 9, 16] {
        let mut station = Station::new();
        let bytes = record(BEGIN, 9, &vec![0; length]);
        assert_eq!(station.feed(&bytes[..8]), closed(Close::BeginLength));
    }
    assert_eq!(station.open(9, KEEP), open(9, Role::Responder, true));
}

#[test]
fn a_begin_of_wrong_length_is_judged_by_how_the_id_stands() {
    let mut station = Station::new();
    station.open(1, KEEP);
    assert_eq!(station.send(BEGIN, 1, &[]), fault(1, Fault::BeginAgain));
    assert_eq!(station.send(BEGIN, 1, &[]), []);
    assert_eq!(station.send(BEGIN, 2, &[]), closed(Close::BeginLength));
}

#[test]
fn spent_requests_are_silent() {
    let mut station = Station::ready(1, KEEP);
    assert_eq!(station.send(ABORT, 1, b"xyz"), told(Event::Abort { id: 1 }));
    for kind in 0..=255 {
        assert_eq!(station.send(kind, 1, &[]), []);
        assert_eq!(station.send(kind, 1, b"12345678"), []);
    }
    // An abort leaves the parameters.
    assert_eq!(&station.area(1)[..15], PORT);
}

#[test]
fn abort_before_the_parameters_ended_keeps_the_turn() {
    let mut station = Station::new();
    station.open(1, KEEP);
    station.send(PARAMS, 1, PORT);
    assert_eq!(station.send(ABORT, 1, &[]), told(Event::Abort { id: 1 }));
    let request = station.connection.slots[0];
    assert_eq!((request.turn, request.life), (Turn::Params, Life::Aborted));
    assert_eq!(request.length, 15);
}

#[test]
fn turns_of_the_roles() {
    let word = Word::Unstated;
    let end = |stream| {
        told(Event::End {
            id: 1,
            stream,
            word,
        })
    };
    for (number, streams) in [(1, "i"), (2, ""), (3, "id")] {
        let mut station = Station::ready(1, role(number, 1));
        if streams.contains('i') {
            let byte = Told::Byte(1, Stream::Stdin, b'x');
            assert_eq!(station.send(STDIN, 1, b"x"), [byte]);
            assert_eq!(station.send(STDIN, 1, &[]), end(Stream::Stdin));
        }
        if streams.contains('d') {
            let byte = Told::Byte(1, Stream::Data, b'y');
            assert_eq!(station.send(DATA, 1, b"y"), [byte]);
            assert_eq!(station.send(DATA, 1, &[]), end(Stream::Data));
        }
        // All is over: any of the three, empty or not, is out of turn.
        for kind in [PARAMS, STDIN, DATA] {
            for content in [&b""[..], b"z"] {
                let mut other = Station {
                    connection: station.connection.clone(),
                    store: station.store.clone(),
                };
                assert_eq!(other.send(kind, 1, content), fault(1, Fault::OutOfTurn));
            }
        }
    }
}

#[test]
fn out_of_turn_before_the_parameters_ended() {
    for kind in [STDIN, DATA] {
        let mut station = Station::new();
        station.open(1, role(3, 1));
        assert_eq!(station.send(kind, 1, &[]), fault(1, Fault::OutOfTurn));
    }
    // A filter's DATA before STDIN has ended.
    let mut station = Station::ready(1, role(3, 1));
    assert_eq!(station.send(DATA, 1, b"x"), fault(1, Fault::OutOfTurn));
    // 22 comes before 24.
    let mut station = Station::ready(1, KEEP);
    assert_eq!(
        station.send(PARAMS, 1, &[0; AREA + 1]),
        fault(1, Fault::OutOfTurn)
    );
}

#[test]
fn parameters_to_the_last_byte_of_the_area() {
    // A name of one byte, and a value that fills up.
    let [_, _, high, low] = (AREA as u32 - 6).to_be_bytes();
    let mut list = vec![1, 0x80, 0, high, low, b'n'];
    list.resize(AREA, 9);
    for cut in [0, 1, 3, AREA - 1, AREA] {
        let mut station = Station::new();
        station.open(1, KEEP);
        for part in [&list[..cut], &list[cut..]] {
            if !part.is_empty() {
                assert_eq!(station.send(PARAMS, 1, part), []);
            }
        }
        assert_eq!(station.area(1), list);
        let bytes = record(PARAMS, 1, &[0]);
        let mut over = Station {
            connection: station.connection.clone(),
            store: station.store.clone(),
        };
        // At the header, before any of its bytes is copied.
        assert_eq!(over.feed(&bytes[..8]), fault(1, Fault::TooLong));
        assert!(over.area(1).iter().all(|&b| b == 0));
        let ready = Event::Ready {
            id: 1,
            length: AREA as u16,
        };
        assert_eq!(station.send(PARAMS, 1, &[]), told(ready));
    }
    let mut station = Station::new();
    station.open(1, KEEP);
    assert_eq!(
        station.send(PARAMS, 1, &[0; AREA + 1]),
        fault(1, Fault::TooLong)
    );
}

#[test]
fn parameters_ended_at_once_and_malformed() {
    let mut station = Station::new();
    station.open(1, KEEP);
    let ready = Event::Ready { id: 1, length: 0 };
    assert_eq!(station.send(PARAMS, 1, &[]), told(ready));
    station.open(2, KEEP);
    station.send(PARAMS, 2, &PORT[..14]);
    let malformed = Fault::Malformed { place: 0 };
    assert_eq!(station.send(PARAMS, 2, &[]), fault(2, malformed));
    // The turn is not moved by a fault: PARAMS counts as not ended.
    assert_eq!(station.connection.slots[1].turn, Turn::Params);
}

#[test]
fn other_types_are_faults() {
    for kind in (0..=255).filter(|kind| ![1, 2, 4, 5, 8].contains(kind)) {
        let mut station = Station::ready(1, KEEP);
        assert_eq!(station.send(kind, 1, b"abc"), fault(1, Fault::WrongType));
        assert!(station.area(1).iter().all(|&b| b == 0));
        let request = station.connection.slots[0];
        assert_eq!((request.length, request.life), (0, Life::Faulted));
        assert_eq!(request.turn, Turn::Stdin);
        assert_eq!(station.connection.active(), Ok(1));
    }
}

#[test]
fn a_fault_is_of_one_request() {
    let mut station = Station::ready(1, KEEP);
    station.open(2, KEEP);
    station.send(PARAMS, 2, PORT);
    let before = station.connection.slots[1];
    station.send(BEGIN, 1, &KEEP);
    assert_eq!(station.connection.slots[1], before);
    assert_eq!(&station.area(2)[..15], PORT);
    let ready = Event::Ready { id: 2, length: 15 };
    assert_eq!(station.send(PARAMS, 2, &[]), told(ready));
}

#[test]
fn openings_refused() {
    let mut station = full();
    let refuse = |id, status| told(Event::Refuse { id, status });
    // The role is looked at before the room.
    assert_eq!(
        station.open(17, role(4, 1)),
        refuse(17, Status::UnknownRole)
    );
    assert_eq!(station.open(17, role(1, 1)), refuse(17, Status::Overloaded));
    assert_eq!(station.open(17, DROP), refuse(17, Status::Overloaded));
    assert!(station.connection.open);
    assert_eq!(station.send(STDIN, 17, b"x"), []);
    // 01 01 is role 257.
    for number in [0, 4, 256, 257, 65_535] {
        let mut station = Station::new();
        assert_eq!(
            station.open(1, role(number, 0)),
            refuse(1, Status::UnknownRole)
        );
        assert_eq!(station.connection.active(), Ok(0));
    }
}

#[test]
fn room_is_judged_at_the_bodys_last_byte() {
    let mut station = full();
    let bytes = padded(BEGIN, 17, &KEEP, 2);
    assert_eq!(station.feed(&bytes[..15]), []);
    let mut buffer = [0; 16 + 8];
    station
        .connection
        .finish(&mut station.store, 5, 0, &mut buffer)
        .unwrap();
    assert_eq!(station.feed(&bytes[15..]), open(17, Role::Responder, true));
    // The lowest free slot, which was that of 5.
    assert_eq!(station.connection.find(17), Some(4));
}

#[test]
fn keep_is_the_lowest_bit() {
    for (flags, keep) in [
        (0, false),
        (1, true),
        (0xff, true),
        (0xfe, false),
        (2, false),
    ] {
        let mut station = Station::new();
        assert_eq!(
            station.open(1, role(2, flags)),
            open(1, Role::Authorizer, keep)
        );
    }
}

#[test]
fn the_greatest_record() {
    let mut station = Station::ready(1, KEEP);
    let bytes = padded(STDIN, 1, &vec![3; 65_535], 255);
    assert_eq!(bytes.len(), 65_798);
    assert_eq!(station.feed(&bytes).len(), 65_535);
    let end = Event::End {
        id: 1,
        stream: Stream::Stdin,
        word: Word::Unstated,
    };
    assert_eq!(station.send(STDIN, 1, &[]), told(end));
}

/// The step that takes in the eighth header byte stops there, and an empty piece does nothing.
#[test]
fn steps_stay_in_one_phase() {
    let mut station = Station::ready(1, KEEP);
    let mut bytes = padded(STDIN, 1, b"abc", 2);
    bytes.extend(record(STDIN, 1, &[]));
    let mut used = Vec::new();
    let mut rest = &bytes[..];
    while !rest.is_empty() {
        let step = station.step(rest).unwrap();
        used.push(step.used);
        rest = &rest[step.used..];
        let before = station.connection.clone();
        let none = station.step(&[]).unwrap();
        assert_eq!((none.used, none.event), (0, None));
        assert_eq!(station.connection, before);
    }
    assert_eq!(used, [8, 3, 2, 8]);
    let mut short = vec![0; STORE - 1];
    let step = station.connection.step(&mut short, &[]);
    assert_eq!(step, Err(Refusal::StoreSize));
}
