//! `next_event`: steps one after another, to the first that tells something or to the end of the piece.

mod common;

use common::{padded, record, Station, KEEP};
use compare::answer::{Close, Event, Refusal, Step, Stream};
use compare::scripts::stream;
use compare::state::{Connection, STORE};
use compare::wire::kind::*;

type Call = fn(&mut Connection, &mut [u8], &[u8]) -> Result<Step, Refusal>;
type Change = fn(&mut Connection);

/// What feeding did.
struct Fed {
    /// Each event, and how many bytes were used with it.
    told: Vec<(usize, Event)>,
    used: usize,
    calls: usize,
    station: Station,
}

/// Feeds a fresh connection in pieces of one size by one call, to the end of the bytes or to a close.
fn fed(bytes: &[u8], size: usize, call: Call) -> Fed {
    let mut station = Station::new();
    let (mut told, mut used, mut calls) = (Vec::new(), 0, 0);
    while used < bytes.len() && station.connection.open {
        let end = bytes.len().min((used / size + 1) * size);
        let Station { connection, store } = &mut station;
        let step = call(connection, store, &bytes[used..end]).unwrap();
        assert!(step.used > 0);
        used += step.used;
        calls += 1;
        told.extend(step.event.map(|event| (used, event)));
    }
    Fed {
        told,
        used,
        calls,
        station,
    }
}

/// The same events at the same places, the same connection and the same store.
fn assert_same(one: &Fed, other: &Fed) {
    assert_eq!((&one.told, one.used), (&other.told, other.used));
    assert_eq!(one.station.connection, other.station.connection);
    assert!(one.station.store == other.station.store);
}

#[test]
fn steps_and_next_event_lead_to_the_same() {
    for seed in 0..300 {
        let bytes = stream(seed);
        for size in [1, 7, 8, 9, 100, 65_536] {
            let steps = fed(&bytes, size, Connection::step);
            let next = fed(&bytes, size, Connection::next_event);
            assert_same(&steps, &next);
            // A call for each piece, and one more for each event that leaves something of its piece.
            let inside = |&&(at, _): &&(usize, Event)| at % size > 0 && at < next.used;
            let inside = next.told.iter().filter(inside).count();
            assert_eq!(next.calls, next.used.div_ceil(size) + inside);
        }
    }
}

/// Row 9 left out makes no difference where a state is in shape.
#[test]
fn without_row_nine() {
    for seed in 0..50 {
        let bytes = stream(seed);
        let tested = fed(&bytes, 100, Connection::next_with::<true>);
        let untested = fed(&bytes, 100, Connection::next_with::<false>);
        assert_same(&tested, &untested);
        assert_eq!(tested.calls, untested.calls);
    }
    let Station {
        mut connection,
        mut store,
    } = Station::new();
    connection.padding = 256;
    let refused = Err(Refusal::OutOfShape);
    assert_eq!(connection.next_with::<true>(&mut store, b"x"), refused);
    let (used, event) = (1, None);
    let next = connection.next_with::<false>(&mut store, b"x");
    assert_eq!(next, Ok(Step { used, event }));
}

#[test]
fn the_bytes_of_data_are_the_last_that_were_used() {
    let mut station = Station::ready(1, KEEP);
    let mut piece = padded(STDIN, 9, b"skipped", 3);
    piece.extend(padded(STDIN, 1, b"abc", 5));
    let next = station
        .connection
        .next_event(&mut station.store, &piece)
        .unwrap();
    let (id, stream, count) = (1, Stream::Stdin, 3);
    assert_eq!(next.event, Some(Event::Data { id, stream, count }));
    // Padding behind it is left for the next call.
    assert_eq!(next.used, piece.len() - 5);
    assert_eq!(&piece[next.used - count..next.used], b"abc");
    assert_eq!(station.connection.padding, 5);
}

/// Nothing is used and nothing changes, however long the piece is, and with an empty one too.
#[test]
fn refused() {
    let piece = [record(STDIN, 9, b"skipped"), record(STDIN, 1, b"abc")].concat();
    let changes: [(Change, usize, Refusal); 4] = [
        (|_| {}, STORE - 1, Refusal::StoreSize),
        (|c| c.held = 8, STORE, Refusal::OutOfShape),
        (|c| c.open = false, STORE, Refusal::Closed),
        (
            |c| (c.open, c.padding) = (false, 256),
            STORE,
            Refusal::OutOfShape,
        ),
    ];
    for (change, lent, refusal) in changes {
        for bytes in [&piece[..], &piece[..1], &[]] {
            let Station {
                mut connection,
                mut store,
            } = Station::ready(1, KEEP);
            change(&mut connection);
            let before = (connection.clone(), store.clone());
            let next = connection.next_event(&mut store[..lent], bytes);
            assert_eq!(next, Err(refusal));
            assert!((connection, store) == before);
        }
    }
}

#[test]
fn a_close_ends_it() {
    let mut station = Station::ready(1, KEEP);
    let mut piece = record(STDIN, 9, b"skipped");
    piece.extend([0, 5, 0, 1, 0, 0, 0, 0]);
    let used = piece.len();
    piece.extend(record(42, 0, &[]));
    let next = station
        .connection
        .next_event(&mut station.store, &piece)
        .unwrap();
    let event = Some(Event::Closed(Close::Version));
    assert_eq!(next, Step { used, event });
    assert!(!station.connection.open);
}
