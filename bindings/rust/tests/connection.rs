//! Connections and requests as a program uses them. That every call answers as it should is compared elsewhere, over
//! random scripts (`bindings/compare`).

use std::io::{self, Read, Write};
use yotnaghez::{Connection, Event, Measure, Output, Refusal, Role, Status, Stream, Turn};

/// A record, without padding.
fn record(kind: u8, id: u16, content: &[u8]) -> Vec<u8> {
    let (id, length) = (id.to_be_bytes(), (content.len() as u16).to_be_bytes());
    let mut bytes = vec![1, kind, id[0], id[1], length[0], length[1], 0, 0];
    bytes.extend_from_slice(content);
    bytes
}

fn begin(id: u16, role: u8, keep: u8) -> Vec<u8> {
    record(1, id, &[0, role, keep, 0, 0, 0, 0, 0])
}

/// A whole request of a responder with one short parameter.
fn request(id: u16, keep: u8, body: &[u8]) -> Vec<u8> {
    let mut bytes = begin(id, 1, keep);
    bytes.extend(record(4, id, b"\x04\x05NAMEvalue"));
    bytes.extend(record(4, id, b""));
    if !body.is_empty() {
        bytes.extend(record(5, id, body));
    }
    bytes.extend(record(5, id, b""));
    bytes
}

/// What was sent, record by record: type, id and content.
fn records(mut bytes: &[u8]) -> Vec<(u8, u16, Vec<u8>)> {
    let mut all = Vec::new();
    while !bytes.is_empty() {
        let id = u16::from_be_bytes([bytes[2], bytes[3]]);
        let length = usize::from(u16::from_be_bytes([bytes[4], bytes[5]]));
        all.push((bytes[1], id, bytes[8..8 + length].to_vec()));
        bytes = &bytes[8 + length + usize::from(bytes[6])..];
    }
    all
}

/// The content of one stream of one request.
fn content(bytes: &[u8], kind: u8, id: u16) -> Vec<u8> {
    records(bytes)
        .into_iter()
        .filter(|r| (r.0, r.1) == (kind, id))
        .flat_map(|r| r.2)
        .collect()
}

#[test]
fn the_events_of_a_request() {
    let mut connection = Connection::new();
    let bytes = request(7, 1, b"body");
    let events: Vec<Event> = connection.feed(&bytes).collect();
    assert_eq!(
        events,
        [
            Event::Open {
                id: 7,
                role: Role::Responder,
                keep: true
            },
            Event::Ready { id: 7, length: 11 },
            Event::Data {
                id: 7,
                stream: Stream::Stdin,
                bytes: b"body"
            },
            Event::End {
                id: 7,
                stream: Stream::Stdin,
                measure: Measure::Unstated
            },
        ]
    );
    let mut request = connection.request(7).unwrap();
    assert_eq!(request.param("NAME"), Some(&b"value"[..]));
    assert_eq!(request.param("name"), None);
    let pairs: Vec<_> = request.params().unwrap().collect();
    assert_eq!((pairs.len(), pairs[0].name), (1, &b"NAME"[..]));
    assert_eq!(
        (request.info().turn, request.info().stdin_shown),
        (Turn::Done, 4)
    );
    request.stderr().write_all(b"a line for the log").unwrap();
    request.finish(3).unwrap();
    let sent = connection.take_output();
    assert_eq!(content(&sent, 7, 7), b"a line for the log");
    assert_eq!(content(&sent, 3, 7), [0, 0, 0, 3, 0, 0, 0, 0]);
    assert_eq!(connection.request(7).err(), Some(Refusal::NotActive));
    assert!(connection.is_open());
}

#[test]
fn long_answers_take_turns() {
    let mut connection = Connection::new();
    let mut bytes = request(1, 1, b"");
    bytes.extend(request(2, 1, b""));
    assert_eq!(connection.feed(&bytes).count(), 6);
    let long: Vec<u8> = (0..100_000u32).map(|i| i as u8).collect();
    let mut first = connection.request(1).unwrap();
    first.stdout().write_all(&long[..2_000]).unwrap();
    let mut second = connection.request(2).unwrap();
    second.stdout().write_all(b"short").unwrap();
    second.finish(0).unwrap();
    let mut first = connection.request(1).unwrap();
    first.stdout().write_all(&long[2_000..]).unwrap();
    first.finish(0).unwrap();
    let mut sent = Vec::new();
    connection.write_to(&mut sent).unwrap();
    assert_eq!(content(&sent, 6, 1), long);
    assert_eq!(content(&sent, 6, 2), b"short");
    // The short answer is out long before the long one.
    let all = records(&sent);
    let end = |id| {
        all.iter()
            .position(|r| (r.0, r.1) == (3, id))
            .expect("it is finished")
    };
    assert!(end(2) < 20 && end(1) > 150);
    assert_eq!(connection.take_output(), b"");
}

#[test]
fn owed_replies_are_written_by_themselves() {
    let mut connection = Connection::new();
    let mut bytes = record(9, 0, b"\x0e\x00FCGI_MAX_CONNS");
    bytes.extend(record(77, 0, b""));
    bytes.extend(begin(5, 9, 1));
    let told: Vec<Event> = connection.feed(&bytes).collect();
    assert!(matches!(
        told[0],
        Event::Query {
            max_conns: true,
            max_reqs: false,
            mpxs_conns: false
        }
    ));
    assert_eq!(told[1], Event::Unknown { kind: 77 });
    assert_eq!(
        told[2],
        Event::Refuse {
            id: 5,
            status: Status::UnknownRole
        }
    );
    let sent = records(&connection.take_output());
    assert_eq!(
        sent,
        [
            (10, 0, b"\x0e\x01FCGI_MAX_CONNS1".to_vec()),
            (11, 0, vec![77, 0, 0, 0, 0, 0, 0, 0]),
            (3, 5, vec![0, 0, 0, 0, 3, 0, 0, 0])
        ]
    );
}

#[test]
fn a_request_without_keep_conn_closes() {
    let mut connection = Connection::new();
    let bytes = request(1, 0, b"");
    assert_eq!(connection.feed(&bytes).count(), 3);
    let mut request = connection.request(1).unwrap();
    request.stdout().write_all(b"bye").unwrap();
    request.end(Output::Stdout).unwrap();
    let refused = request.stdout().write(b"more").unwrap_err();
    assert_eq!(refused.to_string(), "the output is ended");
    request.finish(0).unwrap();
    assert!(connection.is_open());
    let sent = connection.take_output();
    assert_eq!(content(&sent, 6, 1), b"bye");
    assert!(!connection.is_open());
    assert_eq!(connection.next_event(&mut &bytes[..]), None);
    assert_eq!(connection.request(1).err(), Some(Refusal::Closed));
    assert_eq!(connection.feed(&bytes).rest().len(), bytes.len());
}

/// A stream that hands out its bytes in small pieces and keeps what is written.
struct Small {
    input: io::Cursor<Vec<u8>>,
    output: Vec<u8>,
}

impl Read for Small {
    fn read(&mut self, buffer: &mut [u8]) -> io::Result<usize> {
        let n = buffer.len().min(3);
        self.input.read(&mut buffer[..n])
    }
}

impl Write for Small {
    fn write(&mut self, bytes: &[u8]) -> io::Result<usize> {
        self.output.write(bytes)
    }

    fn flush(&mut self) -> io::Result<()> {
        Ok(())
    }
}

#[test]
fn serving_in_small_pieces() {
    let mut input = Vec::new();
    for id in 1..=20 {
        input.extend(request(id, 1, b"some bytes"));
    }
    let mut stream = Small {
        input: io::Cursor::new(input),
        output: Vec::new(),
    };
    let mut echo = vec![Vec::new(); 21];
    Connection::new()
        .serve(&mut stream, |connection, event| {
            match event {
                Event::Data { id, bytes, .. } => echo[usize::from(id)].extend_from_slice(bytes),
                Event::End { id, .. } => {
                    let mut request = connection.request(id)?;
                    request.stdout().write_all(&echo[usize::from(id)])?;
                    request.finish(0)?;
                }
                _ => {}
            }
            Ok(())
        })
        .unwrap();
    for id in 1..=20 {
        assert_eq!(content(&stream.output, 6, id), b"some bytes");
    }
}
