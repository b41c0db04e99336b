//! Start, value and its sister, pairs and walks, the active number; the order of refusals.

mod common;

use common::{Station, DROP, KEEP, PORT};
use compare::answer::{Event, Output, Refusal, Source, Stream, Word};
use compare::state::{Connection, STORE};
use compare::wire::kind::*;

#[test]
fn start() {
    let mut connection = Connection::closed();
    let mut short = vec![7; STORE - 1];
    assert_eq!(connection.start(&mut short), Err(Refusal::StoreSize));
    assert_eq!(connection, Connection::closed());
    assert!(short.iter().all(|&b| b == 7));
    let mut station = Station::ready(1, DROP);
    assert!(station.connection.start(&mut station.store).is_ok());
    assert_eq!(station.connection.active(), Ok(0));
    assert!(station.store.iter().all(|&b| b == 0));
}

#[test]
fn values() {
    let mut station = Station::new();
    station.open(1, KEEP);
    let mut list = PORT.to_vec();
    list.extend(b"\x01\x00A\x01\x03B123\x00\x02ok");
    station.send(PARAMS, 1, &list);
    let value = |station: &Station, name: &[u8]| {
        let Station { connection, store } = station;
        let source = connection.value_source(store, 1, name);
        let value = connection.value(store, 1, name, b"none").to_vec();
        (source, value)
    };
    let refused = (Err(Refusal::NotReady), b"none".to_vec());
    assert_eq!(value(&station, b"A"), refused);
    station.send(PARAMS, 1, &[]);
    let stored = |bytes: &[u8]| (Ok(Source::Store), bytes.to_vec());
    assert_eq!(value(&station, b"SERVER_PORT"), stored(b"80"));
    // An empty value; an empty name is one like others.
    assert_eq!(value(&station, b"A"), stored(b""));
    assert_eq!(value(&station, b"B"), stored(b"123"));
    assert_eq!(value(&station, b""), stored(b"ok"));
    let fallback = (Ok(Source::Fallback), b"none".to_vec());
    assert_eq!(value(&station, b"a"), fallback);
    assert_eq!(value(&station, b"SERVER_POR"), fallback);
    // An aborted request may still be read, a faulted one not.
    station.send(ABORT, 1, &[]);
    assert_eq!(value(&station, b"SERVER_PORT"), stored(b"80"));
    let mut station = Station::ready(1, KEEP);
    station.send(BEGIN, 1, &KEEP);
    assert_eq!(value(&station, b"SERVER_PORT"), refused);
    // Aborted before its parameters ended.
    let mut station = Station::new();
    station.open(1, KEEP);
    station.send(ABORT, 1, &[]);
    assert_eq!(value(&station, b"SERVER_PORT"), refused);
}

/// Only a caller that changes the store can bring about two matches: the first counts.
#[test]
fn the_first_match_in_a_damaged_list() {
    let mut station = Station::new();
    station.open(1, KEEP);
    station.send(PARAMS, 1, b"\x01\x01A1\x01\x01B2\x01\x01C3");
    station.send(PARAMS, 1, &[]);
    let Station { connection, store } = &mut station;
    store[6] = b'A';
    store[10] = b'A';
    assert_eq!(connection.value(store, 1, b"A", b"-"), b"1");
    assert_eq!(connection.value(store, 1, b"B", b"-"), b"-");
    // Pairs by number and walks still show all three.
    let pair = connection.pair_at(store, 1, 2).unwrap();
    assert_eq!(
        (pair.name(&store[..12]), pair.value(&store[..12])),
        (&b"A"[..], &b"3"[..])
    );
    assert_eq!(connection.walk(store, 1).unwrap().count(), 3);
    // Of the list, the end of a body looks at the length alone.
    let end = connection.step(store, &[1, 5, 0, 1, 0, 0, 0, 0]).unwrap();
    let stream = Stream::Stdin;
    let word = Word::Unstated;
    let wanted = Event::End {
        id: 1,
        stream,
        word,
    };
    assert_eq!(end.event, Some(wanted));
}

#[test]
fn a_damaged_list_ends_before_the_malformed_pair() {
    let mut station = Station::new();
    station.open(1, KEEP);
    station.send(PARAMS, 1, b"\x01\x01A1\x01\x01B2");
    station.send(PARAMS, 1, &[]);
    let Station { connection, store } = &mut station;
    store[4] = 200;
    assert_eq!(connection.value(store, 1, b"A", b"-"), b"1");
    assert_eq!(connection.value(store, 1, b"B", b"-"), b"-");
    assert_eq!(connection.pair_at(store, 1, 1), Err(Refusal::NoPair));
    let mut walk = connection.walk(store, 1).unwrap();
    assert_eq!(walk.by_ref().count(), 1);
    assert_eq!((walk.place(), walk.list().len()), (4, 8));
}

/// Places count in the request's area, so that no answer shows a slot.
#[test]
fn pairs_by_number_and_as_a_walk() {
    let mut station = Station::new();
    for id in 1..=3 {
        station.open(id, KEEP);
    }
    station.send(PARAMS, 3, PORT);
    station.send(PARAMS, 3, b"\x00\x00");
    station.send(PARAMS, 3, &[]);
    let Station { connection, store } = &station;
    let pair = connection.pair_at(store, 3, 0).unwrap();
    assert_eq!((pair.name_at, pair.name_length), (2, 11));
    assert_eq!((pair.value_at, pair.value_length), (13, 2));
    let pair = connection.pair_at(store, 3, 1).unwrap();
    assert_eq!((pair.name_at, pair.value_at), (17, 17));
    for k in [2, u64::MAX] {
        assert_eq!(connection.pair_at(store, 3, k), Err(Refusal::NoPair));
    }
    let walk = connection.walk(store, 3).unwrap();
    for (k, pair) in walk.enumerate() {
        assert_eq!(connection.pair_at(store, 3, k as u64), Ok(pair));
    }
}

/// 2, 9, 1, 3, 4, 5, 7, 8, 6: each pair of neighbours where a call can give both.
#[test]
fn the_order_of_refusals() {
    let mut station = Station::ready(1, KEEP);
    let Station { connection, store } = &mut station;
    let mut short = vec![0; 100];
    let mut none = [];
    let out = Output::Stdout;
    // A stream that is ended, and a short buffer.
    connection.end(1, out, &mut [0; 8]).unwrap();
    let said = connection.say(1, out, b"x", &mut none);
    assert_eq!(said, Err(Refusal::StreamEnded));
    let said = connection.say(1, out, b"", &mut none);
    assert_eq!(said, Err(Refusal::StreamEnded));
    // An unknown id, and a short buffer.
    let finished = connection.finish(store, 2, 0, &mut none);
    assert_eq!(finished, Err(Refusal::NotActive));
    assert_eq!(connection.walk(store, 0).err(), Some(Refusal::NotActive));
    // Closed, and an unknown id.
    connection.open = false;
    let said = connection.say(2, out, b"x", &mut none);
    assert_eq!(said, Err(Refusal::Closed));
    assert_eq!(connection.walk(store, 2).err(), Some(Refusal::Closed));
    // Out of shape, and closed.
    connection.held = 8;
    assert_eq!(connection.active(), Err(Refusal::OutOfShape));
    assert_eq!(connection.step(store, b"x"), Err(Refusal::OutOfShape));
    let ended = connection.end(1, out, &mut none);
    assert_eq!(ended, Err(Refusal::OutOfShape));
    // A short store, and out of shape.
    assert_eq!(connection.step(&mut short, b"x"), Err(Refusal::StoreSize));
    let value = connection.value_source(&short, 1, b"");
    assert_eq!(value, Err(Refusal::StoreSize));
    let finished = connection.finish(&mut short, 1, 0, &mut none);
    assert_eq!(finished, Err(Refusal::StoreSize));
    assert_eq!(connection.walk(&short, 1).err(), Some(Refusal::StoreSize));
    let pair = connection.pair_at(&short, 1, 9);
    assert_eq!(pair, Err(Refusal::StoreSize));
}
