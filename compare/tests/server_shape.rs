//! Each condition of row 9 of the server's end broken alone, against every call, and its neighbour that passes.

use compare::answer::Role;
use compare::server::answer::{Input, Refusal};
use compare::server::{Server, Target};
use compare::state::{Life, Turn};

/// Requests 1, 2 and 3 in slots 0 to 2.
fn server() -> Server {
    let mut server = Server::closed();
    server.start();
    for id in 1..=3 {
        server.open_request(id, 1, true, &mut [0; 16]).unwrap();
    }
    server
}

/// Changes a state in shape, and says whether every call refuses it by 9, or none.
fn refused(change: impl Fn(&mut Server)) -> bool {
    let mut server = server();
    assert!(server.in_shape());
    change(&mut server);
    let nine = Some(Refusal::OutOfShape);
    let before = server.clone();
    let buffer = &mut [0xee; 64];
    let answers = [
        server.open_count().err(),
        server.step(&[]).err(),
        server.ask_values(&[], buffer).err(),
        server.clone().step(b"x").err(),
        server.clone().open_request(9, 1, true, buffer).err(),
        server.clone().add_pair(1, b"", b"", buffer).err(),
        server
            .clone()
            .write_input(1, Input::Stdin, b"x", buffer)
            .err(),
        server.clone().end_input(1, Input::Params, buffer).err(),
        server.clone().abort_request(1, buffer).err(),
    ];
    let refused = answers.iter().filter(|answer| **answer == nine).count();
    if refused > 0 {
        assert_eq!(refused, answers.len());
        assert_eq!(server, before);
        assert_eq!(*buffer, [0xee; 64]);
        // 9 comes before 1.
        server.open = false;
        assert_eq!(server.open_count(), Err(Refusal::OutOfShape));
    } else {
        assert!(server.in_shape());
    }
    refused > 0
}

#[test]
fn ids_and_lengths() {
    assert!(refused(|s| s.slots[2].id = 2));
    assert!(refused(|s| s.slots[2].id = 1));
    assert!(!refused(|s| s.slots[2].id = 4));
    assert!(!refused(|s| s.slots[3].id = 2));
    assert!(refused(|s| s.slots[1].id = 0));
    assert!(refused(|s| s.occupied |= 1 << 15));
    assert!(!refused(|s| {
        s.occupied |= 1 << 15;
        s.slots[15].id = 65_535;
    }));
    for slot in [0, 2, 3, 15] {
        assert!(refused(|s| s.slots[slot].length = 4_097));
        assert!(refused(|s| s.slots[slot].length = 65_535));
        assert!(!refused(|s| s.slots[slot].length = 4_096));
    }
}

#[test]
fn counts() {
    assert!(refused(|s| s.held = 8));
    assert!(refused(|s| s.held = u64::MAX));
    assert!(!refused(|s| s.held = 7));
    assert!(refused(|s| s.content = 65_536));
    assert!(refused(|s| s.content = u64::MAX));
    assert!(!refused(|s| s.content = 65_535));
    assert!(refused(|s| s.padding = 256));
    assert!(!refused(|s| s.padding = 255));
    // In any phase.
    assert!(refused(|s| (s.held, s.content) = (8, 5)));
    assert!(refused(|s| (s.content, s.padding) = (5, 256)));
}

fn body(target: Target, gathered: u64, content: u64) -> impl Fn(&mut Server) {
    move |s| (s.target, s.gathered, s.content) = (target, gathered, content)
}

#[test]
fn bodies() {
    for target in [Target::End(2), Target::Unknown] {
        for gathered in 0..=8 {
            assert!(!refused(body(target, gathered, 8 - gathered)));
            assert!(refused(body(target, gathered, 9 - gathered)));
            assert!(refused(body(target, gathered + 1, 8 - gathered)));
        }
        // A sum that comes to 8 in 64 bits only.
        assert!(refused(body(target, u64::MAX, 9)));
    }
    for gathered in [0, 1, 511, 512] {
        assert!(!refused(body(Target::Values, gathered, 512 - gathered)));
        assert!(refused(body(Target::Values, gathered, 513 - gathered)));
    }
    assert!(refused(body(Target::Values, u64::MAX, 2)));
    assert!(refused(body(Target::Values, u64::MAX, 0)));
}

#[test]
fn due_to_a_slot() {
    for target in [Target::Stdout, Target::Stderr, Target::End] {
        for (gathered, content) in [(8, 0), (3, 5)] {
            assert!(!refused(body(target(2), gathered, content)));
            assert!(refused(body(target(3), gathered, content)));
            assert!(refused(body(target(16), gathered, content)));
            assert!(refused(body(target(255), gathered, content)));
        }
    }
    // Of output there may be any amount, and what is gathered does not count.
    assert!(!refused(body(Target::Stdout(1), u64::MAX, 65_535)));
    assert!(!refused(body(Target::Skip, u64::MAX, 65_535)));
}

/// Odd, but in shape.
#[test]
fn nothing_else_is_out_of_shape() {
    assert!(!refused(
        |s| (s.slots[0].role, s.slots[0].turn) = (Role::Authorizer, Turn::Data)
    ));
    assert!(!refused(|s| {
        s.slots[1].life = Life::Faulted;
        s.slots[1].out_ended = true;
        (s.target, s.content) = (Target::Stdout(1), 4);
    }));
    assert!(!refused(|s| (s.held, s.content) = (5, 4)));
    assert!(!refused(|s| {
        s.slots[7].id = 1;
        s.slots[7].life = Life::Aborted;
        s.slots[7].length = 12;
    }));
    // A closed state with requests: 1 where it is in shape.
    let mut closed = server();
    closed.open = false;
    closed.content = 3;
    assert_eq!(closed.open_count(), Err(Refusal::Closed));
    assert_eq!(closed.step(&[]), Err(Refusal::Closed));
}
