//! Each condition of row 9 broken alone, against every call, and its neighbour on the edge that passes.

mod common;

use common::{Station, KEEP};
use compare::answer::{Output, Refusal, Role};
use compare::state::{Connection, Life, Target, Turn, AREA};
use compare::wire::kind::*;

/// The length of a list that fills its area.
const FULL: u16 = AREA as u16;

/// Requests 1, 2 and 3 in slots 0 to 2, past their parameters.
fn station() -> Station {
    let mut station = Station::new();
    for id in 1..=3 {
        station.open(id, KEEP);
        station.send(PARAMS, id, &[]);
    }
    station
}

/// Changes a state in shape, and says whether every call refuses it by 9, or none.
fn refused(change: impl Fn(&mut Connection)) -> bool {
    let Station {
        mut connection,
        mut store,
    } = station();
    assert!(connection.in_shape());
    change(&mut connection);
    let nine = Some(Refusal::OutOfShape);
    let before = connection.clone();
    let buffer = &mut [0xee; 64];
    let answers = [
        connection.active().err(),
        connection.value_source(&store, 1, b"").err(),
        connection.pair_at(&store, 1, 0).err(),
        connection.walk(&store, 1).err(),
        connection.step(&mut store, &[]).err(),
        connection.next_event(&mut store, &[]).err(),
        connection.say(1, Output::Stdout, &[], buffer).err(),
        connection.end(1, Output::Stderr, buffer).err(),
        connection.step(&mut store, b"x").err(),
        connection.finish(&mut store, 1, 0, buffer).err(),
    ];
    let refused = answers.iter().filter(|answer| **answer == nine).count();
    if refused > 0 {
        assert_eq!(refused, answers.len());
        assert_eq!(connection, before);
        assert_eq!(*buffer, [0xee; 64]);
        // 9 comes before 1.
        connection.open = false;
        assert_eq!(connection.active(), Err(Refusal::OutOfShape));
    } else {
        assert!(connection.in_shape());
    }
    refused > 0
}

#[test]
fn lengths() {
    for slot in [0, 2, 3, 15] {
        assert!(refused(|c| c.slots[slot].length = FULL + 1));
        assert!(refused(|c| c.slots[slot].length = 65_535));
        assert!(!refused(|c| c.slots[slot].length = FULL));
    }
}

#[test]
fn ids() {
    assert!(refused(|c| c.slots[2].id = 2));
    assert!(!refused(|c| c.slots[2].id = 4));
    assert!(!refused(|c| c.slots[3].id = 2));
    assert!(refused(|c| c.slots[1].id = 0));
    assert!(refused(|c| c.occupied |= 1 << 15));
    assert!(!refused(|c| {
        c.occupied |= 1 << 15;
        c.slots[15].id = 65_535;
    }));
}

#[test]
fn counts() {
    assert!(refused(|c| c.held = 8));
    assert!(refused(|c| c.held = u64::MAX));
    assert!(!refused(|c| c.held = 7));
    assert!(refused(|c| c.content = 65_536));
    assert!(refused(|c| c.content = u64::MAX));
    assert!(!refused(|c| c.content = 65_535));
    assert!(refused(|c| c.padding = 256));
    assert!(!refused(|c| c.padding = 255));
    // In any phase.
    assert!(refused(|c| (c.held, c.content) = (8, 5)));
    assert!(refused(|c| (c.content, c.padding) = (5, 256)));
}

fn body(target: Target, gathered: u64, content: u64) -> impl Fn(&mut Connection) {
    move |c| (c.target, c.gathered, c.content) = (target, gathered, content)
}

#[test]
fn bodies() {
    let begin = Target::Begin(9);
    for gathered in 0..=8 {
        assert!(!refused(body(begin, gathered, 8 - gathered)));
        assert!(refused(body(begin, gathered, 9 - gathered)));
        assert!(refused(body(begin, gathered + 1, 8 - gathered)));
    }
    // A sum that comes to 8 in 64 bits only.
    assert!(refused(body(begin, u64::MAX, 9)));
    assert!(refused(body(Target::Begin(0), 3, 5)));
    assert!(refused(body(Target::Begin(2), 3, 5)));
    assert!(!refused(body(Target::Begin(4), 3, 5)));
    for gathered in [0, 1, 511, 512] {
        assert!(!refused(body(Target::Query, gathered, 512 - gathered)));
        assert!(refused(body(Target::Query, gathered, 513 - gathered)));
    }
    assert!(refused(body(Target::Query, u64::MAX, 2)));
    assert!(refused(body(Target::Query, u64::MAX, 0)));
}

#[test]
fn due_to_a_slot() {
    for target in [Target::Params, Target::Stdin, Target::Data] {
        for content in [0, 5] {
            assert!(!refused(body(target(2), 0, content)));
            assert!(refused(body(target(3), 0, content)));
            assert!(refused(body(target(16), 0, content)));
            assert!(refused(body(target(255), 0, content)));
        }
    }
    let params = |length, content| {
        move |c: &mut Connection| {
            c.slots[1].length = length;
            (c.target, c.content) = (Target::Params(1), content);
        }
    };
    assert!(!refused(params(FULL - 48, 48)));
    assert!(refused(params(FULL - 48, 49)));
    assert!(!refused(params(FULL, 0)));
    assert!(refused(params(FULL, 1)));
    assert!(refused(params(0, 65_535)));
    // Of STDIN there may be any amount.
    assert!(!refused(body(Target::Stdin(1), 0, 65_535)));
}

/// Odd, but in shape: the definition answers.
#[test]
fn nothing_else_is_out_of_shape() {
    assert!(!refused(
        |c| (c.slots[0].role, c.slots[0].turn) = (Role::Authorizer, Turn::Data)
    ));
    assert!(!refused(|c| {
        c.slots[1].life = Life::Faulted;
        (c.target, c.content) = (Target::Stdin(1), 4);
    }));
    assert!(!refused(|c| (c.held, c.content) = (5, 4)));
    assert!(!refused(body(Target::Begin(9), 8, 0)));
    assert!(!refused(|c| {
        c.slots[7].id = 1;
        c.slots[7].life = Life::Aborted;
        c.slots[7].length = 12;
    }));
    // A closed state with requests: 1 where it is in shape.
    let mut station = station();
    station.connection.open = false;
    station.connection.content = 3;
    assert_eq!(station.connection.active(), Err(Refusal::Closed));
    assert_eq!(station.step(&[]), Err(Refusal::Closed));
}
