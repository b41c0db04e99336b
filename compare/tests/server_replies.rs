//! Replies as the server's end hears them: closes at their byte, cutting, and what a station says.

mod common;

use common::{padded, record, Station, KEEP, PORT};
use compare::answer::{Event as Told, Output};
use compare::pairs::Pairs;
use compare::random::Random;
use compare::reply::reply;
use compare::server::answer::{Close, Event, Refusal, Step};
use compare::server::{Server, Target};
use compare::state::Turn;
use compare::wire::{end_body, kind::*};

/// A server with so many requests, from id 1 on.
fn server(requests: u16) -> Server {
    let mut server = Server::closed();
    server.start();
    for id in 1..=requests {
        server.open_request(id, 1, true, &mut [0; 16]).unwrap();
    }
    server
}

/// What is heard, output byte by byte, to a close or to the end; and how many bytes were used.
fn heard(server: &mut Server, bytes: &[u8], size: usize) -> (Vec<Heard>, usize) {
    let (mut all, mut used) = (Vec::new(), 0);
    while used < bytes.len() && server.open {
        let end = bytes.len().min((used / size + 1) * size);
        let piece = &bytes[used..end];
        let step = server.step(piece).unwrap();
        assert!(step.used > 0);
        match step.event {
            Some(Event::Output { id, stream, count }) => {
                assert_eq!(count, step.used);
                all.extend(piece[..count].iter().map(|&b| Heard::Byte(id, stream, b)));
            }
            Some(Event::Values { length }) => {
                all.push(Heard::Values(server.values[..length].to_vec()));
            }
            Some(event) => all.push(Heard::Event(event)),
            None => {}
        }
        used += step.used;
    }
    (all, used)
}

#[derive(Clone, Debug, PartialEq)]
enum Heard {
    Byte(u16, Output, u8),
    Values(Vec<u8>),
    Event(Event),
}

/// The close that bytes lead to, and the bytes used by then, in any pieces.
fn closed(server: &Server, bytes: &[u8]) -> (Close, usize) {
    let mut found = Vec::new();
    for size in [1, 3, 8, 65_536] {
        let mut copy = server.clone();
        let (told, used) = heard(&mut copy, bytes, size);
        match told.last() {
            Some(&Heard::Event(Event::Closed(cause))) => found.push((cause, used)),
            last => panic!("{last:?}"),
        }
        let values = copy.values;
        assert_eq!(
            copy,
            Server {
                values,
                ..Server::closed()
            }
        );
        assert_eq!(copy.step(&[]), Err(Refusal::Closed));
    }
    assert!(found.iter().all(|one| *one == found[0]));
    found[0]
}

#[test]
fn closes_in_order() {
    let mut ended = server(2);
    heard(&mut ended, &record(STDOUT, 1, &[]), 8);
    let header = |version, kind, id, content: u16| {
        let [high, low] = content.to_be_bytes();
        [version, kind, 0, id, high, low, 9, 9, 9, 9]
    };
    for (bytes, cause) in [
        (header(0, 1, 9, 7), Close::Version),
        (header(2, STDOUT, 1, 0), Close::Version),
        (header(1, 1, 9, 7), Close::NoReply),
        (header(1, GET_VALUES, 0, 513), Close::NoReply),
        (header(1, END, 9, 7), Close::NotOpen),
        (header(1, END, 0, 8), Close::NotOpen),
        (header(1, STDOUT, 0, 0), Close::NotOpen),
        (header(1, GET_VALUES_RESULT, 1, 513), Close::NotOpen),
        (header(1, UNKNOWN_TYPE, 2, 7), Close::NotOpen),
        (header(1, END, 1, 7), Close::BodyLength),
        (header(1, END, 1, 0x0800), Close::BodyLength),
        (header(1, UNKNOWN_TYPE, 0, 0), Close::BodyLength),
        (header(1, GET_VALUES_RESULT, 0, 513), Close::Values),
        (header(1, STDOUT, 1, 0), Close::StreamEnded),
        (header(1, STDOUT, 1, 5), Close::StreamEnded),
    ] {
        assert_eq!(closed(&ended, &bytes), (cause, 8), "{bytes:?}");
    }
    // The other stream, and the other request, may go on.
    assert_eq!(heard(&mut ended, &record(STDERR, 1, &[]), 8).0.len(), 1);
    assert_eq!(heard(&mut ended, &record(STDOUT, 2, &[]), 8).0.len(), 1);
}

#[test]
fn results() {
    let list = |n: usize| [&[0x80, 0, 1, (n - 261) as u8, 0][..], &vec![b'n'; n - 5]].concat();
    for n in [511, 512] {
        let wanted = Heard::Values(list(n));
        assert_eq!(
            heard(&mut server(0), &record(GET_VALUES_RESULT, 0, &list(n)), 7).0,
            [wanted]
        );
    }
    assert_eq!(
        closed(&server(0), &record(GET_VALUES_RESULT, 0, &list(513))).1,
        8
    );
    // Malformed: at the last content byte, whatever padding follows.
    let broken = padded(GET_VALUES_RESULT, 0, &list(512)[..500], 4);
    assert_eq!(closed(&server(0), &broken), (Close::Values, 508));
    // The values of the one before stay behind those of a shorter one, and all of them at a close and an empty result.
    let mut server = server(0);
    heard(
        &mut server,
        &record(GET_VALUES_RESULT, 0, b"\x01\x05A12345"),
        8,
    );
    heard(&mut server, &record(GET_VALUES_RESULT, 0, b"\x01\x00B"), 8);
    assert_eq!(server.values[..9], *b"\x01\x00B12345\0");
    let (told, _) = heard(&mut server, &record(GET_VALUES_RESULT, 0, b""), 8);
    assert_eq!(told, [Heard::Values(Vec::new())]);
    heard(&mut server, &record(BEGIN, 0, &[]), 8);
    assert_eq!(server.values[..9], *b"\x01\x00B12345\0");
    server.start();
    assert_eq!(server.values, [0; 512]);
}

#[test]
fn an_end_frees_its_id_at_its_last_content_byte() {
    let mut server = server(3);
    let end = padded(END, 2, &end_body(0x0102_0304, 5), 3);
    for &byte in &end[..15] {
        assert_eq!(
            server.step(&[byte]),
            Ok(Step {
                used: 1,
                event: None
            })
        );
        assert_eq!(server.open_count(), Ok(3));
    }
    let event = Some(Event::Finished {
        id: 2,
        app_status: 0x0102_0304,
        protocol_status: 5,
    });
    assert_eq!(server.step(&end[15..]), Ok(Step { used: 1, event }));
    assert_eq!((server.open_count(), server.find(2)), (Ok(2), None));
    // Its padding is still to come; the id can be opened in the middle of it.
    assert_eq!(server.padding, 3);
    server.open_request(2, 3, false, &mut [0; 16]).unwrap();
    assert_eq!(server.find(2), Some(1));
    assert_eq!(server.slots[1].turn, Turn::Params);
    let told = heard(
        &mut server,
        &[&[0; 3][..], &record(STDOUT, 2, b"x")].concat(),
        2,
    )
    .0;
    assert_eq!(told, [Heard::Byte(2, Output::Stdout, b'x')]);
    assert_eq!(
        closed(&server, &record(END, 4, &[0; 8])),
        (Close::NotOpen, 8)
    );
}

#[test]
fn after_content_the_state_forgets_what_it_was_for() {
    let mut server = server(1);
    let end = end_body(0, 0);
    for bytes in [
        record(STDOUT, 1, b"abc"),
        record(STDERR, 1, b"abc"),
        record(UNKNOWN_TYPE, 0, &[1; 8]),
        record(GET_VALUES_RESULT, 0, &[0; 4]),
        record(STDOUT, 1, &[]),
        record(END, 1, &end),
    ] {
        heard(&mut server, &bytes, 65_536);
        assert_eq!(server.target, Target::Skip);
        assert_eq!((server.content, server.padding, server.held), (0, 0, 0));
        assert!(server.in_shape());
    }
    assert_eq!(server.open_count(), Ok(0));
}

/// What a station says, ends and finishes, and its replies, are heard as they were meant, however they are cut.
#[test]
fn what_a_station_says_is_heard() {
    for seed in 0..60 {
        let random = &mut Random::new(seed);
        let mut station = Station::new();
        let (mut bytes, mut wanted) = (Vec::new(), Vec::new());
        let mut buffer = vec![0; 40_000];
        let mut ids = vec![1, 2, 256, 65_535];
        let mut server = server(0);
        for &id in &ids {
            station.open(id, KEEP);
            station.send(PARAMS, id, PORT);
            station.send(PARAMS, id, &[]);
            server.open_request(id, 1, true, &mut [0; 16]).unwrap();
        }
        while !ids.is_empty() {
            let i = random.index(ids.len());
            let id = ids[i];
            let stream = random.pick(&[Output::Stdout, Output::Stderr]);
            let connection = &mut station.connection;
            let n = match random.below(6) {
                0 => {
                    let event = Told::Query(compare::answer::Named {
                        max_reqs: true,
                        ..Default::default()
                    });
                    wanted.push(Heard::Values(b"\x0d\x02FCGI_MAX_REQS16".to_vec()));
                    reply(Some(&event), &mut buffer).unwrap()
                }
                1 => {
                    wanted.push(Heard::Event(Event::Unknown { kind: 77 }));
                    reply(Some(&Told::Unknown { kind: 77 }), &mut buffer).unwrap()
                }
                2 => {
                    ids.remove(i);
                    let request = connection.slots[connection.find(id).unwrap()];
                    let ends = [
                        (Output::Stdout, !request.out_ended),
                        (Output::Stderr, request.err_used && !request.err_ended),
                    ];
                    for (stream, _) in ends.iter().filter(|(_, written)| *written) {
                        wanted.push(Heard::Event(Event::Ended {
                            id,
                            stream: *stream,
                        }));
                    }
                    let status = random.draw() as u32;
                    wanted.push(Heard::Event(Event::Finished {
                        id,
                        app_status: status,
                        protocol_status: 0,
                    }));
                    let store = &mut station.store;
                    connection
                        .finish(store, id, status, &mut buffer)
                        .unwrap()
                        .wrote
                }
                3 => match connection.end(id, stream, &mut buffer) {
                    Ok(n) => {
                        wanted.push(Heard::Event(Event::Ended { id, stream }));
                        n
                    }
                    Err(_) => 0,
                },
                _ => {
                    let n = random.pick(&[0, 1, 8, 9_000]);
                    let data = random.bytes(n);
                    match connection.say(id, stream, &data, &mut buffer) {
                        Ok(n) => {
                            wanted.extend(data.iter().map(|&b| Heard::Byte(id, stream, b)));
                            n
                        }
                        Err(_) => 0,
                    }
                }
            };
            bytes.extend(&buffer[..n]);
        }
        for size in [1, 7, 100, 65_536] {
            let mut copy = server.clone();
            assert_eq!(
                heard(&mut copy, &bytes, size),
                (wanted.clone(), bytes.len()),
                "seed {seed}"
            );
            assert_eq!(copy.open_count(), Ok(0));
        }
    }
}

/// The list of a result is read by the pairs that the values hold.
#[test]
fn the_values_of_a_result() {
    let mut server = server(0);
    let list = b"\x0e\x01FCGI_MAX_CONNS1\x0f\x01FCGI_MPXS_CONNS1";
    heard(&mut server, &record(GET_VALUES_RESULT, 0, list), 5);
    let held = &server.values[..list.len()];
    let names: Vec<&[u8]> = Pairs::new(held).map(|pair| pair.name(held)).collect();
    assert_eq!(names, [&b"FCGI_MAX_CONNS"[..], b"FCGI_MPXS_CONNS"]);
}
