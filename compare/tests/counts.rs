//! How many bytes of a body were shown: what counts, what leaves the counts, and what makes them 0.

mod common;

use common::{counts, end, fault, filter, list_of, padded, record, role, told, Station, KEEP};
use compare::answer::{Event, Fault, Stream, Word};
use compare::state::{Connection, Life, Target, Turn, AREA};
use compare::wire::kind::*;

/// A count that stays.
const FULL: u32 = u32::MAX;

/// All records count, padding does not, and it does not matter how the bytes are cut.
#[test]
fn cut_anywhere() {
    for (value, word) in [
        ("9", Word::Short),
        ("8", Word::Exact),
        ("7", Word::Over),
        ("x", Word::Unstated),
    ] {
        let mut bytes = padded(STDIN, 1, b"abc", 5);
        bytes.extend(padded(STDIN, 1, b"d", 255));
        bytes.extend(record(STDIN, 2, b"of nobody"));
        bytes.extend(record(STDIN, 1, b"efgh"));
        bytes.extend(padded(STDIN, 1, &[], 3));
        for size in [1, 2, 7, 8, 9, bytes.len()] {
            let mut station = filter(&[("CONTENT_LENGTH", value)]);
            let told = station.feed_in(&bytes, size);
            assert_eq!(told[8..], end(1, Stream::Stdin, word));
            assert_eq!(counts(&station, 1), (8, 0));
        }
    }
}

/// A step counts what it shows, and not what it was lent.
#[test]
fn counts_step_by_step() {
    let mut station = filter(&[]);
    let bytes = padded(STDIN, 1, b"abcde", 3);
    let mut seen = Vec::new();
    for (from, to) in [(0, 8), (8, 10), (10, 16), (13, 16)] {
        station.step(&bytes[from..to]).unwrap();
        seen.push(counts(&station, 1).0);
    }
    assert_eq!(seen, [0, 2, 5, 5]);
    station.step(&[]).unwrap();
    assert_eq!(counts(&station, 1), (5, 0));
}

#[test]
fn a_count_stays_where_it_is_full() {
    for (before, bytes, after, word) in [
        (FULL - 3, 1, FULL - 2, Word::Short),
        (FULL - 3, 2, FULL - 1, Word::Exact),
        (FULL - 3, 3, FULL, Word::Over),
        (FULL - 3, 4, FULL, Word::Over),
        (FULL - 3, 65_535, FULL, Word::Over),
        (FULL - 1, 1, FULL, Word::Over),
        (FULL, 1, FULL, Word::Over),
        (FULL, 0, FULL, Word::Over),
    ] {
        let length = "4294967294";
        let mut station = filter(&[("CONTENT_LENGTH", length), ("FCGI_DATA_LENGTH", length)]);
        for (kind, stream) in [(STDIN, Stream::Stdin), (DATA, Stream::Data)] {
            *station.connection.slots[0].shown_mut(stream) = before;
            if bytes > 0 {
                station.send(kind, 1, &vec![0; bytes]);
            }
            assert_eq!(station.connection.slots[0].shown(stream), after);
            assert_eq!(station.send(kind, 1, &[]), end(1, stream, word));
        }
    }
}

/// Two requests, cut into each other.
#[test]
fn two_requests() {
    let mut station = filter(&[("CONTENT_LENGTH", "3")]);
    station.open(2, KEEP);
    station.send(PARAMS, 2, &list_of(&[("CONTENT_LENGTH", "3")]));
    station.send(PARAMS, 2, &[]);
    for (id, content) in [(1, &b"a"[..]), (2, b"bcde"), (1, b"fg")] {
        station.send(STDIN, id, content);
    }
    assert_eq!(counts(&station, 1), (3, 0));
    assert_eq!(counts(&station, 2), (4, 0));
    let over = end(2, Stream::Stdin, Word::Over);
    assert_eq!(station.send(STDIN, 2, &[]), over);
    // A fault of one leaves the other's.
    assert_eq!(station.send(STDIN, 2, &[]), fault(2, Fault::OutOfTurn));
    assert_eq!(counts(&station, 2), (0, 0));
    assert_eq!(counts(&station, 1), (3, 0));
    let exact = end(1, Stream::Stdin, Word::Exact);
    assert_eq!(station.send(STDIN, 1, &[]), exact);
}

/// A filter in its DATA, with counts of 2 and 1.
fn within_data() -> Station {
    let mut station = filter(&[("CONTENT_LENGTH", "2"), ("FCGI_DATA_LENGTH", "3")]);
    station.send(STDIN, 1, b"ab");
    station.send(STDIN, 1, &[]);
    station.send(DATA, 1, b"c");
    assert_eq!(counts(&station, 1), (2, 1));
    station
}

#[test]
fn a_fault_leaves_no_counts() {
    for (kind, wanted) in [
        (BEGIN, Fault::BeginAgain),
        (STDIN, Fault::OutOfTurn),
        (PARAMS, Fault::OutOfTurn),
        (STDOUT, Fault::WrongType),
    ] {
        let mut station = within_data();
        assert_eq!(station.send(kind, 1, b"xyz"), fault(1, wanted));
        assert_eq!(counts(&station, 1), (0, 0));
        // What is skipped does not count.
        assert_eq!(station.send(DATA, 1, b"de"), []);
        assert_eq!(station.send(STDIN, 1, b"de"), []);
        assert_eq!(station.send(DATA, 1, &[]), []);
        assert_eq!(counts(&station, 1), (0, 0));
    }
    // Faults at the end of PARAMS, of a request whose counts only a caller can have set.
    for (list, wanted) in [
        (&b"\x01"[..], Fault::Malformed { place: 0 }),
        (&b"\0\0\0\0"[..], Fault::Repeated),
        (&[0; AREA + 1][..], Fault::TooLong),
    ] {
        let mut station = Station::new();
        station.open(1, KEEP);
        station.connection.slots[0].stdin_shown = 5;
        station.connection.slots[0].data_shown = FULL;
        let mut told = station.send(PARAMS, 1, list);
        told.extend(station.send(PARAMS, 1, &[]));
        assert_eq!(told, fault(1, wanted));
        assert_eq!(counts(&station, 1), (0, 0));
    }
}

#[test]
fn an_abort_keeps_the_counts() {
    let mut station = within_data();
    let abort = told(Event::Abort { id: 1 });
    assert_eq!(station.send(ABORT, 1, b"xyz"), abort);
    assert_eq!(counts(&station, 1), (2, 1));
    assert_eq!(station.send(DATA, 1, b"de"), []);
    assert_eq!(station.send(DATA, 1, &[]), []);
    assert_eq!(counts(&station, 1), (2, 1));
    // A caller that makes it live again goes on from there.
    station.connection.slots[0].life = Life::Live;
    station.send(DATA, 1, b"de");
    let exact = end(1, Stream::Data, Word::Exact);
    assert_eq!(station.send(DATA, 1, &[]), exact);
}

#[test]
fn finished_and_opened_again() {
    let mut station = within_data();
    // Inside a record, the rest of which counts for nobody.
    let bytes = record(DATA, 1, b"defg");
    station.feed(&bytes[..10]);
    assert_eq!(counts(&station, 1), (2, 3));
    let Station { connection, store } = &mut station;
    connection.finish(store, 1, 0, &mut [0; 24]).unwrap();
    assert_eq!(connection.slots, Connection::closed().slots);
    assert_eq!(station.feed(&bytes[10..]), []);
    station.open(1, role(3, 1));
    assert_eq!(counts(&station, 1), (0, 0));
    station.send(PARAMS, 1, &list_of(&[("CONTENT_LENGTH", "1")]));
    station.send(PARAMS, 1, &[]);
    station.send(STDIN, 1, b"x");
    let exact = end(1, Stream::Stdin, Word::Exact);
    assert_eq!(station.send(STDIN, 1, &[]), exact);
    let unstated = end(1, Stream::Data, Word::Unstated);
    assert_eq!(station.send(DATA, 1, &[]), unstated);
    assert_eq!(counts(&station, 1), (1, 0));
}

/// Content that no traffic makes due to a spent request is shown, so it counts; so does a turn that the role has not.
#[test]
fn odd_states_in_shape() {
    let mut station = within_data();
    station.send(ABORT, 1, &[]);
    station.connection.target = Target::Stdin(0);
    station.connection.content = 2;
    station.step(b"xyz").unwrap();
    assert_eq!(counts(&station, 1), (4, 1));
    let mut station = Station::ready(1, role(2, 1));
    station.connection.slots[0].turn = Turn::Data;
    station.send(DATA, 1, b"x");
    let unstated = end(1, Stream::Data, Word::Unstated);
    assert_eq!(station.send(DATA, 1, &[]), unstated);
    assert_eq!(counts(&station, 1), (0, 1));
}
