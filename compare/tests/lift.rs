//! A request lifted out of a capture: the copy and the verdict, at the edges.

mod common;

use common::{padded, record, role, KEEP, PORT};
use compare::answer::{Close, Refusal};
use compare::lift::bench::{ids_in, replay_difference};
use compare::lift::{lift, said, Lifted, Verdict};
use compare::replay::replay;
use compare::wire::kind;
use std::fs;
use std::path::Path;

/// The copy, and the line of the verdict.
fn lifted(capture: &[u8], id: u16) -> (Vec<u8>, String) {
    let said = said(capture, id);
    (said.copy, said.line)
}

fn wanted(copy: &[u8], line: &str) -> (Vec<u8>, String) {
    (copy.into(), line.into())
}

fn begin(id: u16) -> Vec<u8> {
    record(kind::BEGIN, id, &KEEP)
}

#[test]
fn nothing_and_one_byte() {
    assert_eq!(lifted(&[], 1), wanted(&[], "clean"));
    for byte in [0, 1, 2, 255] {
        assert_eq!(lifted(&[byte], 1), wanted(&[], "cut"));
    }
}

#[test]
fn id_0_is_refused() {
    for capture in [vec![], vec![1], record(kind::GET_VALUES, 0, &[])] {
        assert_eq!(lift(&capture, 0), Err(Refusal::NotActive));
        assert_eq!(lifted(&capture, 0), wanted(&[], "refused 3"));
    }
    // Also where the capture closes.
    assert_eq!(lifted(&[9; 8], 0), wanted(&[], "refused 3"));
}

/// Seven bytes of a header are not copied, though the id is in; eight are. Of the BEGIN itself, and of a later record.
#[test]
fn cut_in_a_header() {
    let first = padded(kind::BEGIN, 1, &KEEP, 3);
    let second = padded(kind::PARAMS, 1, PORT, 5);
    for n in 1..8 {
        assert_eq!(lifted(&first[..n], 1), wanted(&[], "cut"));
        let capture = [&first, &second[..n]].concat();
        assert_eq!(lifted(&capture, 1), wanted(&begin(1), "cut"));
    }
    let header = [1, 1, 0, 1, 0, 8, 0, 0xaa];
    assert_eq!(lifted(&first[..8], 1), wanted(&header, "cut"));
    let capture = [&first, &second[..8]].concat();
    let copy = [&begin(1)[..], &[1, 4, 0, 1, 0, 15, 0, 0xaa]].concat();
    assert_eq!(lifted(&capture, 1), wanted(&copy, "cut"));
}

/// The length in the header stays as it was captured, whatever of the content came.
#[test]
fn cut_in_content_and_in_padding() {
    let first = begin(1);
    let second = padded(kind::PARAMS, 1, PORT, 5);
    let whole = record(kind::PARAMS, 1, PORT);
    for n in 8..second.len() {
        let capture = [&first, &second[..n]].concat();
        let copy = [&first, &whole[..n.min(8 + PORT.len())]].concat();
        assert_eq!(lifted(&capture, 1), wanted(&copy, "cut"), "{n}");
        // The cut of another's record is told too.
        assert_eq!(lifted(&capture, 2), wanted(&[], "cut"), "{n}");
    }
    let capture = [&first[..], &second].concat();
    let copy = [&first[..], &whole].concat();
    assert_eq!(lifted(&capture, 1), wanted(&copy, "clean"));
}

/// Padding and its length are the only things that change.
#[test]
fn padding_dropped_and_the_rest_kept() {
    for padding in [0, 1, 8, 255] {
        let capture = [
            padded(kind::BEGIN, 300, &KEEP, padding),
            padded(kind::PARAMS, 300, &[], padding),
            padded(kind::STDIN, 300, b"-18", padding),
        ];
        let copy = [
            &b"\x01\x01\x01\x2c\x00\x08\x00\xaa\x00\x01\x01\x00\x00\x00\x00\x00"[..],
            b"\x01\x04\x01\x2c\x00\x00\x00\xaa",
            b"\x01\x05\x01\x2c\x00\x03\x00\xaa-18",
        ];
        let said = lifted(&capture.concat(), 300);
        assert_eq!(said, wanted(&copy.concat(), "clean"));
    }
    let mut capture = padded(kind::BEGIN, 1, &[0, 1, 0xfe, 9, 9, 9, 9, 9], 2);
    capture[7] = 0x55;
    let copy = [1, 1, 0, 1, 0, 8, 0, 0x55, 0, 1, 0xfe, 9, 9, 9, 9, 9];
    assert_eq!(lifted(&capture, 1), wanted(&copy, "clean"));
}

#[test]
fn the_greatest_record() {
    let content = vec![0x33; 65_535];
    let capture = [begin(1), padded(kind::STDIN, 1, &content, 255)].concat();
    let copy = [begin(1), record(kind::STDIN, 1, &content)].concat();
    assert_eq!(lifted(&capture, 1), wanted(&copy, "clean"));
    let end = capture.len() - 1;
    assert_eq!(lifted(&capture[..end], 1), wanted(&copy, "cut"));
}

#[test]
fn records_before_the_first_begin() {
    let early = [
        record(kind::PARAMS, 1, PORT),
        record(kind::ABORT, 1, &[]),
        record(kind::STDIN, 1, b"early"),
        record(99, 1, b"odd"),
    ]
    .concat();
    assert_eq!(lifted(&early, 1), wanted(&[], "clean"));
    let later = [begin(1), record(kind::PARAMS, 1, PORT)].concat();
    let capture = [&early[..], &later].concat();
    assert_eq!(lifted(&capture, 1), wanted(&later, "clean"));
}

/// Types that no request may be sent are its records too.
#[test]
fn any_type_is_copied() {
    let mut copy = begin(1);
    for kind in [0, 2, 3, 6, 7, 9, 10, 11, 12, 255] {
        copy.extend(record(kind, 1, b"x"));
    }
    assert_eq!(lifted(&copy, 1), wanted(&copy, "clean"));
}

#[test]
fn other_ids_and_management_left_out() {
    let mut capture = Vec::new();
    for kind in [kind::BEGIN, kind::PARAMS, kind::STDIN] {
        let content: &[u8] = if kind == kind::BEGIN { &KEEP } else { b"" };
        for id in [1, 256, 257, 513] {
            capture.extend(record(kind, id, content));
            capture.extend(record(kind::GET_VALUES, 0, &[]));
            capture.extend(record(kind::BEGIN, 0, &[7]));
        }
    }
    for id in [1, 256, 257, 513] {
        let copy = [
            begin(id),
            record(kind::PARAMS, id, &[]),
            record(kind::STDIN, id, &[]),
        ];
        assert_eq!(lifted(&capture, id), wanted(&copy.concat(), "clean"));
    }
    for id in [2, 255, 258, 512, 65_535] {
        assert_eq!(lifted(&capture, id), wanted(&[], "clean"));
    }
}

/// The copy goes on from the first BEGIN, whatever comes of a later one: a wrong length is a fault of an active request.
#[test]
fn two_begins_of_one_id() {
    let again = [
        begin(1),
        record(kind::PARAMS, 1, &[]),
        begin(1),
        record(kind::BEGIN, 1, b"short"),
        record(kind::STDIN, 1, b"x"),
    ]
    .concat();
    assert_eq!(lifted(&again, 1), wanted(&again, "clean"));
    // An opening that is refused begins the copy too, and so does one that finds no room.
    let refused = [
        record(kind::BEGIN, 1, &role(4, 1)),
        record(kind::STDIN, 1, b"x"),
        begin(1),
    ]
    .concat();
    assert_eq!(lifted(&refused, 1), wanted(&refused, "clean"));
    let mut crowd: Vec<u8> = (100..116).flat_map(begin).collect();
    crowd.extend(&again);
    assert!(replay(&crowd, 8).contains("refuse 1 2\n"));
    // It is not active there, so the BEGIN of a wrong length closes: the records before it are copied.
    let offset = crowd.len() - 9 - 13;
    let copy = &again[..again.len() - 9 - 13];
    let line = format!("closed 12 at {offset}");
    assert_eq!(lifted(&crowd, 1), wanted(copy, &line));
}

/// A record that closes, how many of its bytes decide, and the number.
fn closing_records() -> [(Vec<u8>, usize, u8); 8] {
    let mut version = padded(kind::STDIN, 1, b"own", 4);
    version[0] = 2;
    let mut other = padded(kind::BEGIN, 2, &KEEP, 4);
    other[0] = 0;
    let malformed = padded(kind::GET_VALUES, 0, b"\x05\x00FCGI", 7);
    [
        (version, 8, 11),
        (other, 8, 11),
        (vec![255; 8], 8, 11),
        (padded(kind::BEGIN, 2, &[0; 7], 1), 8, 12),
        (padded(kind::BEGIN, 2, &[], 0), 8, 12),
        (padded(kind::GET_VALUES, 0, &[0; 513], 0), 8, 13),
        (padded(kind::GET_VALUES, 0, b"\x01", 9), 9, 14),
        (malformed, 14, 14),
    ]
}

/// The offset is that of the closing record's first byte. The record is not copied, nor is what follows. Where the
/// capture ends before the byte that decides, it is cut; behind that byte it need not be whole.
#[test]
fn closes_and_their_offsets() {
    let before = [padded(kind::BEGIN, 1, &KEEP, 9), record(4, 1, PORT)].concat();
    let copy = [begin(1), record(4, 1, PORT)].concat();
    let behind = [record(kind::STDIN, 1, b"behind"), begin(1)].concat();
    for (closing, decides, number) in closing_records() {
        let line = format!("closed {number} at {}", before.len());
        for end in 1..=closing.len() {
            let capture = [&before, &closing[..end]].concat();
            let said = lifted(&capture, 1);
            if end >= decides {
                assert_eq!(said, wanted(&copy, &line));
            } else {
                // Before that the records of the id are copied, as far as their header is whole.
                assert_eq!(said, wanted(&copy, "cut"));
            }
        }
        let capture = [&before[..], &closing, &behind, &[1]].concat();
        assert_eq!(lifted(&capture, 1), wanted(&copy, &line));
        let alone = format!("closed {number} at 0");
        assert_eq!(lifted(&closing, 1), wanted(&[], &alone));
    }
}

#[test]
fn the_first_close_is_told() {
    let capture = [padded(kind::BEGIN, 2, &[], 3), vec![7; 8]].concat();
    let cause = Close::BeginLength;
    let verdict = Verdict::Closed { cause, offset: 0 };
    let copy = Vec::new();
    assert_eq!(lift(&capture, 2), Ok(Lifted { copy, verdict }));
}

/// Close 12: its own BEGIN of a wrong length is not copied, be it the first or one behind a refused opening.
#[test]
fn its_own_begin_of_a_wrong_length() {
    for length in [0, 7, 9, 264] {
        let bad = record(kind::BEGIN, 1, &vec![0; length]);
        assert_eq!(lifted(&bad, 1), wanted(&[], "closed 12 at 0"));
        let early = record(kind::STDIN, 1, b"early");
        let capture = [&early[..], &bad].concat();
        assert_eq!(lifted(&capture, 1), wanted(&[], "closed 12 at 13"));
        let refused = record(kind::BEGIN, 1, &role(257, 1));
        let capture = [&refused[..], &bad, &begin(1)].concat();
        assert_eq!(lifted(&capture, 1), wanted(&refused, "closed 12 at 16"));
    }
    // Of a BEGIN that is cut, the header decides.
    let bad = record(kind::BEGIN, 1, &[0; 9]);
    assert_eq!(lifted(&bad[..7], 1), wanted(&[], "cut"));
    assert_eq!(lifted(&bad[..8], 1), wanted(&[], "closed 12 at 0"));
}

/// Each request of each sample, replayed alone, tells what it tells in the whole.
#[test]
fn samples() {
    let samples = Path::new(env!("CARGO_MANIFEST_DIR")).join("../samples");
    let mut lifts = 0;
    for folder in [samples.clone(), samples.join("captures")] {
        for entry in fs::read_dir(folder).unwrap() {
            let path = entry.unwrap().path();
            if path.extension().is_none_or(|extension| extension != "bin") {
                continue;
            }
            let capture = fs::read(&path).unwrap();
            let lines = replay(&capture, 1_000);
            for id in ids_in(&capture) {
                let Lifted { copy, verdict } = lift(&capture, id).unwrap();
                let of_copy = replay(&copy, 7);
                let found = replay_difference(&lines, &of_copy, id, verdict);
                assert_eq!((verdict, found), (Verdict::Clean, None), "{path:?} {id}");
                assert!(!copy.is_empty());
                lifts += 1;
            }
        }
    }
    assert!(lifts > 26);
}
