//! Say, end a stream, finish, and the replies that events owe.

mod common;

use common::{padded, record, role, told, Station, Told, DROP, KEEP, PORT};
use compare::answer::{Event, Named, Output, Refusal, Status, Stream};
use compare::reply::reply;
use compare::state::{Connection, Life, Turn};
use compare::wire::kind::*;

fn say(station: &mut Station, output: Output, n: usize, room: usize) -> Result<usize, Refusal> {
    let mut buffer = vec![0xee; room];
    let data: Vec<u8> = (0..n).map(|i| i as u8).collect();
    let said = station.connection.say(1, output, &data, &mut buffer);
    // The records hold the data, none of them is empty, and nothing behind them is touched.
    let wrote = said.unwrap_or(0);
    let (mut at, mut joined) = (0, Vec::<u8>::new());
    while at < wrote {
        let content = usize::from(buffer[at + 4]) * 256 + usize::from(buffer[at + 5]);
        assert_eq!(buffer[at..at + 4], [1, output as u8, 0, 1]);
        assert!(content > 0);
        joined.extend(&buffer[at + 8..at + 8 + content]);
        let end = at + 8 + content + usize::from(buffer[at + 6]);
        assert!(buffer[at + 8 + content..end].iter().all(|&b| b == 0));
        assert_eq!((end - at) % 8, 0);
        at = end;
    }
    assert_eq!(joined, data[..if said.is_ok() { n } else { 0 }]);
    assert!(buffer[wrote..].iter().all(|&b| b == 0xee));
    said
}

#[test]
fn lengths_of_output() {
    let mut station = Station::ready(1, KEEP);
    for (n, wrote) in [
        (0, 0),
        (1, 16),
        (8, 16),
        (9, 24),
        (8_184, 8_192),
        (8_185, 8_208),
        (16_368, 16_384),
        (16_369, 16_400),
    ] {
        assert_eq!(say(&mut station, Output::Stdout, n, wrote), Ok(wrote));
        assert_eq!(say(&mut station, Output::Stderr, n, wrote + 9), Ok(wrote));
        if n > 0 {
            let short = say(&mut station, Output::Stdout, n, wrote - 1);
            assert_eq!(short, Err(Refusal::NoRoom));
        }
    }
}

#[test]
fn who_may_say() {
    // Not before the parameters ended, but for a spent request.
    let mut station = Station::new();
    station.open(1, KEEP);
    assert_eq!(
        say(&mut station, Output::Stdout, 1, 16),
        Err(Refusal::NotReady)
    );
    station.send(ABORT, 1, &[]);
    assert_eq!(say(&mut station, Output::Stdout, 1, 16), Ok(16));
    let mut station = Station::new();
    station.open(1, KEEP);
    station.send(STDIN, 1, &[]);
    assert_eq!(say(&mut station, Output::Stderr, 1, 16), Ok(16));
    assert_eq!(say(&mut station, Output::Stdout, 1, 16), Ok(16));
}

#[test]
fn stderr_is_used_by_data_only() {
    let mut station = Station::ready(1, KEEP);
    say(&mut station, Output::Stderr, 0, 0).unwrap();
    assert!(!station.connection.slots[0].err_used);
    say(&mut station, Output::Stdout, 3, 16).unwrap();
    assert!(!station.connection.slots[0].err_used);
    say(&mut station, Output::Stderr, 1, 16).unwrap();
    assert!(station.connection.slots[0].err_used);
}

#[test]
fn ends_of_streams() {
    let mut station = Station::ready(1, KEEP);
    let mut buffer = [0xee; 9];
    let mut end = |output, room: usize| {
        let ended = station.connection.end(1, output, &mut buffer[..room]);
        (ended, buffer)
    };
    assert_eq!(end(Output::Stderr, 7), (Err(Refusal::NoRoom), [0xee; 9]));
    let (ended, bytes) = end(Output::Stderr, 9);
    assert_eq!((ended, bytes), (Ok(8), [1, 7, 0, 1, 0, 0, 0, 0, 0xee]));
    assert_eq!(end(Output::Stderr, 8).0, Err(Refusal::StreamEnded));
    // The other stream's end is no matter, and finish writes no second end.
    assert_eq!(say(&mut station, Output::Stdout, 1, 16), Ok(16));
    let mut buffer = [0; 32];
    let Station { connection, store } = &mut station;
    let finished = connection.finish(store, 1, 0, &mut buffer).unwrap();
    assert_eq!(finished.wrote, 24);
}

#[test]
fn what_finish_writes() {
    for (out_ended, err_used, err_ended, ends) in [
        (false, false, false, &[6][..]),
        (true, false, false, &[]),
        (false, true, false, &[6, 7]),
        (true, true, false, &[7]),
        (true, true, true, &[]),
        (true, false, true, &[]),
        (false, true, true, &[6]),
    ] {
        let mut station = Station::ready(1, KEEP);
        let request = &mut station.connection.slots[0];
        (request.out_ended, request.err_used, request.err_ended) = (out_ended, err_used, err_ended);
        let mut wanted = Vec::new();
        for &kind in ends {
            wanted.extend([1, kind, 0, 1, 0, 0, 0, 0]);
        }
        wanted.extend([1, 3, 0, 1, 0, 8, 0, 0, 0, 0, 3, 0xaa, 0, 0, 0, 0]);
        let Station { connection, store } = &mut station;
        let before = (connection.clone(), store.clone());
        let mut short = vec![0xee; wanted.len() - 1];
        let finished = connection.finish(store, 1, 938, &mut short);
        assert_eq!(finished, Err(Refusal::NoRoom));
        assert!(short.iter().all(|&b| b == 0xee));
        assert_eq!((connection.clone(), store.clone()), before);
        let mut buffer = vec![0xee; wanted.len() + 1];
        let finished = connection.finish(store, 1, 938, &mut buffer).unwrap();
        assert_eq!((finished.wrote, finished.closed), (wanted.len(), false));
        wanted.push(0xee);
        assert_eq!(buffer, wanted);
        assert_eq!(connection.active(), Ok(0));
        assert!(store.iter().all(|&b| b == 0));
    }
}

fn finish(station: &mut Station, id: u16) -> bool {
    let Station { connection, store } = station;
    let finished = connection.finish(store, id, 0, &mut [0; 32]);
    finished.unwrap().closed
}

/// Never 4: a request can be finished before its parameters ended.
#[test]
fn finish_at_any_time() {
    let mut station = Station::new();
    station.open(1, KEEP);
    station.send(PARAMS, 1, PORT);
    assert!(!finish(&mut station, 1));
    assert!(station.store.iter().all(|&b| b == 0));
}

#[test]
fn without_keep_conn_all_is_dropped() {
    for spent in [None, Some(ABORT), Some(BEGIN)] {
        let mut station = Station::ready(1, KEEP);
        station.open(2, DROP);
        station.send(PARAMS, 2, PORT);
        if let Some(kind) = spent {
            station.send(kind, 2, &[]);
        }
        assert!(finish(&mut station, 2));
        assert_eq!(station.connection, Connection::closed());
        assert!(station.store.iter().all(|&b| b == 0));
    }
}

/// The rest of a finished request's record is shown to nobody, also when the id is opened again.
#[test]
fn finish_inside_a_record() {
    for kind in [PARAMS, STDIN, DATA] {
        let mut station = Station::new();
        station.open(1, role(3, 1));
        if kind != PARAMS {
            station.send(PARAMS, 1, &[]);
        }
        if kind == DATA {
            station.send(STDIN, 1, &[]);
        }
        let bytes = padded(kind, 1, b"abcdef", 4);
        station.feed(&bytes[..11]);
        assert!(!finish(&mut station, 1));
        assert!(station.connection.in_shape());
        let mut rest = bytes[11..].to_vec();
        rest.extend(record(BEGIN, 1, &KEEP));
        rest.extend(record(PARAMS, 1, &[]));
        rest.extend(record(STDIN, 1, b"z"));
        for size in [1, 7, 100] {
            let mut again = Station {
                connection: station.connection.clone(),
                store: station.store.clone(),
            };
            let events = again.feed_in(&rest, size);
            assert_eq!(events.len(), 3);
            assert_eq!(events[2], Told::Byte(1, Stream::Stdin, b'z'));
        }
    }
}

/// A half-read header is judged at its eighth byte, by then against an id that is not active.
#[test]
fn finish_inside_a_header() {
    let mut station = Station::ready(1, KEEP);
    let bytes = record(STDIN, 1, b"abc");
    station.feed(&bytes[..5]);
    finish(&mut station, 1);
    assert_eq!(station.connection.held, 5);
    assert_eq!(station.feed(&bytes[5..]), []);
    let open = station.open(1, KEEP);
    assert_eq!(open.len(), 1);
}

/// Half-read records of others go on.
#[test]
fn finish_inside_anothers_record() {
    let mut station = Station::ready(1, KEEP);
    station.open(2, KEEP);
    let bytes = record(PARAMS, 2, PORT);
    station.feed(&bytes[..15]);
    finish(&mut station, 1);
    station.feed(&bytes[15..]);
    let ready = Event::Ready { id: 2, length: 15 };
    assert_eq!(station.send(PARAMS, 2, &[]), told(ready));
    let bytes = record(BEGIN, 1, &KEEP);
    station.feed(&bytes[..12]);
    finish(&mut station, 2);
    let opened = station.feed(&bytes[12..]);
    assert!(matches!(
        opened[..],
        [Told::Event(Event::Open { id: 1, .. })]
    ));
    // The slot that was given back is the lowest free one; its record is new.
    assert_eq!(station.connection.find(1), Some(0));
    let request = station.connection.slots[0];
    assert_eq!(
        (request.turn, request.life, request.length),
        (Turn::Params, Life::Live, 0)
    );
}

#[test]
fn replies() {
    for bits in 0..8u8 {
        let named = Named {
            max_conns: bits & 1 != 0,
            max_reqs: bits & 2 != 0,
            mpxs_conns: bits & 4 != 0,
        };
        let mut list = Vec::new();
        let known: [&[u8]; 3] = [
            b"\x0e\x01FCGI_MAX_CONNS1",
            b"\x0d\x02FCGI_MAX_REQS16",
            b"\x0f\x01FCGI_MPXS_CONNS1",
        ];
        for (i, pair) in known.iter().enumerate() {
            if bits >> i & 1 != 0 {
                list.extend(*pair);
            }
        }
        let padding = list.len().next_multiple_of(8) - list.len();
        let mut wanted = vec![1, 10, 0, 0, 0, list.len() as u8, padding as u8, 0];
        wanted.extend(&list);
        wanted.extend(vec![0; padding]);
        let event = Event::Query(named);
        let mut buffer = vec![0xee; wanted.len() + 2];
        assert_eq!(reply(Some(&event), &mut buffer), Ok(wanted.len()));
        assert_eq!(buffer[..wanted.len()], wanted);
        assert_eq!(buffer[wanted.len()..], [0xee, 0xee]);
        let short = &mut buffer[..wanted.len() - 1];
        assert_eq!(reply(Some(&event), short), Err(Refusal::NoRoom));
        if bits == 7 {
            assert_eq!((list.len(), wanted.len()), (52, 64));
        }
    }
    let mut buffer = [0xee; 16];
    let event = Event::Refuse {
        id: 258,
        status: Status::UnknownRole,
    };
    assert_eq!(reply(Some(&event), &mut buffer), Ok(16));
    assert_eq!(buffer, [1, 3, 1, 2, 0, 8, 0, 0, 0, 0, 0, 0, 3, 0, 0, 0]);
    let event = Event::Unknown { kind: 42 };
    assert_eq!(reply(Some(&event), &mut buffer), Ok(16));
    assert_eq!(buffer, [1, 11, 0, 0, 0, 8, 0, 0, 42, 0, 0, 0, 0, 0, 0, 0]);
    assert_eq!(reply(Some(&event), &mut buffer[..15]), Err(Refusal::NoRoom));
    for event in [
        None,
        Some(Event::Abort { id: 1 }),
        Some(Event::Closed(compare::answer::Close::Version)),
    ] {
        assert_eq!(reply(event.as_ref(), &mut []), Ok(0));
    }
}
