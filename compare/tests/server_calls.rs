//! The calls that write requests: their rows in order, their sizes, and what a station reads of them.

mod common;

use common::{record, Station, Told};
use compare::answer::{Event, Role, Stream, Word};
use compare::random::Random;
use compare::server::answer::{Input, Refusal};
use compare::server::Server;
use compare::state::{Life, Turn};
use compare::wire::kind::*;

fn server() -> Server {
    let mut server = Server::closed();
    server.start();
    server
}

/// A server with a request that was opened.
fn opened(role: u16) -> Server {
    let mut server = server();
    server.open_request(1, role, true, &mut [0; 16]).unwrap();
    server
}

/// What a call writes into just the room that it needs; one byte less is refused, and changes and writes nothing.
fn written(
    server: &mut Server,
    needed: usize,
    call: impl Fn(&mut Server, &mut [u8]) -> Result<usize, Refusal>,
) -> Vec<u8> {
    let before = server.clone();
    if needed > 0 {
        let mut short = vec![0xee; needed - 1];
        assert_eq!(call(server, &mut short), Err(Refusal::NoRoom));
        assert!(short.iter().all(|&byte| byte == 0xee));
        assert_eq!(*server, before);
    }
    let mut buffer = vec![0xee; needed + 3];
    assert_eq!(call(server, &mut buffer), Ok(needed));
    assert_eq!(buffer[needed..], [0xee; 3]);
    buffer.truncate(needed);
    buffer
}

#[test]
fn openings_are_refused_in_order() {
    let mut server = server();
    let room = &mut [0; 16];
    for id in 1..=16 {
        assert_eq!(server.open_request(id, 1, false, room), Ok(16));
    }
    let mut refused = |id, role, n: usize| server.open_request(id, role, true, &mut room[..n]);
    assert_eq!(refused(0, 9, 0), Err(Refusal::IdZero));
    assert_eq!(refused(16, 9, 0), Err(Refusal::IdOpen));
    assert_eq!(refused(17, 9, 0), Err(Refusal::NoSlot));
    server.start();
    let mut refused = |id, role, n: usize| server.open_request(id, role, true, &mut room[..n]);
    assert_eq!(refused(17, 9, 0), Err(Refusal::UnknownRole));
    assert_eq!(refused(17, 257, 16), Err(Refusal::UnknownRole));
    assert_eq!(refused(17, 3, 15), Err(Refusal::NoRoom));
    assert_eq!(refused(17, 3, 16), Ok(16));
}

#[test]
fn an_opening_sets_all_fields() {
    let mut server = server();
    server.slots[0].turn = Turn::Done;
    server.slots[0].life = Life::Faulted;
    (server.slots[0].out_ended, server.slots[0].err_ended) = (true, true);
    server.slots[0].length = 4_096;
    server.open_request(9, 3, true, &mut [0; 16]).unwrap();
    let request = server.slots[0];
    assert_eq!(
        (request.id, request.role, request.keep),
        (9, Role::Filter, true)
    );
    assert_eq!((request.turn, request.life), (Turn::Params, Life::Live));
    assert_eq!(
        (request.out_ended, request.err_ended, request.length),
        (false, false, 0)
    );
}

/// Which of the seven writes are in turn: a pair; STDIN, DATA; ends of PARAMS, STDIN, DATA; an abort.
fn in_turn(server: &Server) -> [bool; 7] {
    let try_out = |call: fn(&mut Server, &mut [u8]) -> Result<usize, Refusal>| {
        let mut copy = server.clone();
        match call(&mut copy, &mut [0; 100]) {
            Ok(_) => true,
            Err(refusal) => {
                assert_eq!((refusal, &copy), (Refusal::OutOfTurn, server));
                false
            }
        }
    };
    [
        try_out(|s, buffer| s.add_pair(1, b"", b"", buffer)),
        try_out(|s, buffer| s.write_input(1, Input::Stdin, b"", buffer)),
        try_out(|s, buffer| s.write_input(1, Input::Data, b"", buffer)),
        try_out(|s, buffer| s.end_input(1, Input::Params, buffer)),
        try_out(|s, buffer| s.end_input(1, Input::Stdin, buffer)),
        try_out(|s, buffer| s.end_input(1, Input::Data, buffer)),
        try_out(|s, buffer| s.abort_request(1, buffer)),
    ]
}

#[test]
fn turns_of_each_role() {
    const PARAMS_TURN: [bool; 7] = [true, false, false, true, false, false, true];
    const STDIN_TURN: [bool; 7] = [false, true, false, false, true, false, true];
    const DATA_TURN: [bool; 7] = [false, false, true, false, false, true, true];
    const NO_TURN: [bool; 7] = [false, false, false, false, false, false, true];
    const STREAMS: [Input; 3] = [Input::Params, Input::Stdin, Input::Data];
    let turns: [&[[bool; 7]]; 3] = [
        &[PARAMS_TURN, STDIN_TURN, NO_TURN],
        &[PARAMS_TURN, NO_TURN],
        &[PARAMS_TURN, STDIN_TURN, DATA_TURN, NO_TURN],
    ];
    for (role, turns) in (1..).zip(turns) {
        let mut server = opened(role);
        for (i, turn) in turns.iter().enumerate() {
            assert_eq!(in_turn(&server), *turn, "role {role}");
            let mut aborted = server.clone();
            aborted.abort_request(1, &mut [0; 8]).unwrap();
            assert_eq!(in_turn(&aborted), [false; 7]);
            if i + 1 < turns.len() {
                server.end_input(1, STREAMS[i], &mut [0; 8]).unwrap();
            }
        }
    }
}

#[test]
fn sizes_of_content() {
    let mut server = opened(1);
    server.end_input(1, Input::Params, &mut [0; 8]).unwrap();
    for (n, needed) in [
        (0, 0),
        (1, 16),
        (8, 16),
        (9, 24),
        (8_183, 8_192),
        (8_184, 8_192),
        (8_185, 8_208),
        (16_368, 16_384),
        (16_369, 16_400),
        (65_536, 65_608),
    ] {
        let data = vec![7; n];
        let bytes = written(&mut server, needed, |s, buffer| {
            s.write_input(1, Input::Stdin, &data, buffer)
        });
        assert_eq!(bytes.len() % 8, 0);
    }
}

#[test]
fn the_longest_pairs() {
    let mut server = opened(1);
    let (longest, longer) = (vec![1; 65_535], vec![1; 65_536]);
    let no_room = &mut [];
    assert_eq!(
        server.add_pair(1, &longer, b"", no_room),
        Err(Refusal::TooLong)
    );
    assert_eq!(
        server.add_pair(1, b"", &longer, no_room),
        Err(Refusal::TooLong)
    );
    assert_eq!(
        server.add_pair(1, &longest, &longest, no_room),
        Err(Refusal::NoRoom)
    );
    // Both at once pass: 131,078 bytes of content are 16 full records and a rest of 134.
    written(&mut server, 16 * 8_192 + 144, |s, buffer| {
        s.add_pair(1, &longest, &longest, buffer)
    });
    // Out of turn, and not open, come first.
    assert_eq!(
        server.add_pair(2, &longer, b"", no_room),
        Err(Refusal::NotOpen)
    );
    server.abort_request(1, &mut [0; 8]).unwrap();
    assert_eq!(
        server.add_pair(1, &longer, b"", no_room),
        Err(Refusal::OutOfTurn)
    );
}

#[test]
fn asks() {
    let mut server = server();
    let list = |n: usize| [&[0x80, 0, 1, (n - 261) as u8, 0][..], &vec![b'n'; n - 5]].concat();
    assert_eq!(
        written(&mut server, 8, |s, b| s.ask_values(&[], b)),
        record_of(GET_VALUES, &[])
    );
    assert_eq!(
        written(&mut server, 520, |s, b| s.ask_values(&list(511), b)).len(),
        520
    );
    assert_eq!(
        written(&mut server, 520, |s, b| s.ask_values(&list(512), b)).len(),
        520
    );
    assert_eq!(
        server.ask_values(&list(513), &mut []),
        Err(Refusal::BadQuery)
    );
    assert_eq!(
        server.ask_values(&list(512)[..511], &mut []),
        Err(Refusal::BadQuery)
    );
    assert_eq!(
        server.ask_values(&[0x80, 0, 0], &mut [0; 100]),
        Err(Refusal::BadQuery)
    );
}

/// A record of id 0 without padding or reserved bytes.
fn record_of(kind: u8, content: &[u8]) -> Vec<u8> {
    let mut bytes = record(kind, 0, content);
    bytes[7] = 0;
    bytes
}

/// What the calls write for some requests, written in turns, is read by a station as just these requests.
#[test]
fn a_station_reads_what_is_written() {
    for seed in 0..60 {
        let random = &mut Random::new(seed);
        let (mut server, mut bytes) = (server(), Vec::new());
        let mut buffer = vec![0; 40_000];
        let mut wanted = Vec::new();
        let role = random.within(1, 3) as u16;
        let keep = random.one_in(2);
        let id = random.pick(&[1, 255, 256, 65_535]);
        let mut put =
            |n: Result<usize, Refusal>, buffer: &[u8]| bytes.extend(&buffer[..n.unwrap()]);
        put(server.open_request(id, role, keep, &mut buffer), &buffer);
        let role = Role::of(role).unwrap();
        wanted.push(Told::Event(Event::Open { id, role, keep }));
        let mut length = 0;
        for i in 0..random.below(4) as u8 {
            let n = random.pick(&[0, 1, 127, 128, 900]);
            let value = random.bytes(n);
            put(
                server.add_pair(id, &[b'a' + i], &value, &mut buffer),
                &buffer,
            );
            length += 3 + n + if n < 128 { 0 } else { 3 };
        }
        put(server.end_input(id, Input::Params, &mut buffer), &buffer);
        let length = length as u16;
        wanted.push(Told::Event(Event::Ready { id, length }));
        for (input, stream, has) in [
            (Input::Stdin, Stream::Stdin, role != Role::Authorizer),
            (Input::Data, Stream::Data, role == Role::Filter),
        ] {
            for _ in 0..if has { random.below(3) } else { 0 } {
                let n = random.pick(&[0, 1, 8, 9_000]);
                let data = random.bytes(n);
                put(server.write_input(id, input, &data, &mut buffer), &buffer);
                wanted.extend(data.iter().map(|&byte| Told::Byte(id, stream, byte)));
            }
            if has {
                put(server.end_input(id, input, &mut buffer), &buffer);
                let word = Word::Unstated;
                wanted.push(Told::Event(Event::End { id, stream, word }));
            }
        }
        if random.one_in(3) {
            put(server.abort_request(id, &mut buffer), &buffer);
            wanted.push(Told::Event(Event::Abort { id }));
        }
        for size in [1, 7, 100, 65_536] {
            assert_eq!(Station::new().feed_in(&bytes, size), wanted, "seed {seed}");
        }
    }
}
