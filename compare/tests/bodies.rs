//! The word that the end of a body has for its length, against the one that the list states.

mod common;

use common::{counts, end, filter, list_of, record, role, Station, Told, KEEP};
use compare::answer::{Event, Refusal, Step, Stream, Word};
use compare::console::text::event_text;
use compare::digest::mixed;
use compare::replay::replay;
use compare::stated::{stated_by, stated_length, word_for};
use compare::wire::kind::*;

/// The word of a STDIN body of so many bytes.
fn word_of(value: &str, bytes: usize) -> Word {
    let mut station = filter(&[("CONTENT_LENGTH", value)]);
    if bytes > 0 {
        station.send(STDIN, 1, &vec![b'x'; bytes]);
    }
    match station.send(STDIN, 1, &[])[..] {
        [Told::Event(Event::End { word, .. })] => word,
        ref other => panic!("{other:?}"),
    }
}

#[test]
fn short_exact_and_over() {
    for stated in [0usize, 1, 2, 9, 10, 255, 256, 65_534] {
        let value = stated.to_string();
        assert_eq!(word_of(&value, stated), Word::Exact);
        assert_eq!(word_of(&value, stated + 1), Word::Over);
        if stated > 0 {
            assert_eq!(word_of(&value, stated - 1), Word::Short);
            assert_eq!(word_of(&value, 0), Word::Short);
        }
    }
}

/// Each value with a neighbour that states a length.
#[test]
fn values_that_state_nothing() {
    for (odd, good) in [
        ("", "0"),
        (" ", "0"),
        ("+3", "03"),
        ("-3", "3"),
        ("-0", "0"),
        (" 3", "03"),
        ("3 ", "30"),
        ("3\n", "3"),
        ("3\0", "3"),
        ("\x003", "03"),
        ("0x3", "003"),
        ("3h", "3"),
        ("a", "9"),
        ("/", "0"),
        (":", "9"),
        ("3.0", "30"),
        ("3,000", "3000"),
        ("1e1", "10"),
        ("\u{663}", "3"),
        ("00000000003", "0000000003"),
        ("12345678901", "1234567890"),
        ("4294967295", "4294967294"),
        ("4294967296", "4294967293"),
        ("4294967299", "0000000003"),
        ("9999999999", "0999999999"),
        ("18446744073709551619", "3"),
    ] {
        assert_eq!(stated_by(odd.as_bytes()), None, "{odd:?}");
        assert_eq!(word_of(odd, 3), Word::Unstated, "{odd:?}");
        assert_eq!(stated_by(good.as_bytes()), good.parse().ok(), "{good}");
        assert_ne!(word_of(good, 3), Word::Unstated, "{good}");
    }
}

#[test]
fn every_byte_of_a_value() {
    for byte in 0..=255u8 {
        let digit = byte.is_ascii_digit().then(|| u32::from(byte - b'0'));
        assert_eq!(stated_by(&[byte]), digit);
        assert_eq!(stated_by(&[b'1', byte]), digit.map(|n| 10 + n));
        assert_eq!(stated_by(&[byte, b'1']), digit.map(|n| 10 * n + 1));
    }
    for length in 0..=12 {
        let zeros = vec![b'0'; length];
        assert_eq!(
            stated_by(&zeros),
            (1..=10).contains(&length).then_some(0),
            "{length}"
        );
    }
}

#[test]
fn absent_names_and_almost_the_same() {
    let mut station = filter(&[]);
    let unstated = end(1, Stream::Stdin, Word::Unstated);
    assert_eq!(station.send(STDIN, 1, &[]), unstated);
    for name in [
        "content_length",
        "CONTENT_LENGT",
        "CONTENT_LENGTHS",
        "CONTENT-LENGTH",
        "ONTENT_LENGTH",
        "HTTP_CONTENT_LENGTH",
        "FCGI_DATA_LENGTH",
        "",
    ] {
        let mut station = filter(&[(name, "1")]);
        station.send(STDIN, 1, b"x");
        assert_eq!(station.send(STDIN, 1, &[]), unstated, "{name}");
        let mut station = filter(&[(name, "7"), ("CONTENT_LENGTH", "1")]);
        station.send(STDIN, 1, b"x");
        let exact = end(1, Stream::Stdin, Word::Exact);
        assert_eq!(station.send(STDIN, 1, &[]), exact, "{name}");
    }
}

#[test]
fn each_body_has_its_own_name_and_count() {
    let mut station = filter(&[("CONTENT_LENGTH", "2"), ("FCGI_DATA_LENGTH", "3")]);
    station.send(STDIN, 1, b"ab");
    assert_eq!(counts(&station, 1), (2, 0));
    let exact = |stream| end(1, stream, Word::Exact);
    assert_eq!(station.send(STDIN, 1, &[]), exact(Stream::Stdin));
    station.send(DATA, 1, b"cde");
    assert_eq!(counts(&station, 1), (2, 3));
    assert_eq!(station.send(DATA, 1, &[]), exact(Stream::Data));
    assert_eq!(counts(&station, 1), (2, 3));
    // Neither is taken for the other.
    for (name, of_stdin, of_data) in [
        ("CONTENT_LENGTH", Word::Exact, Word::Unstated),
        ("FCGI_DATA_LENGTH", Word::Unstated, Word::Exact),
    ] {
        let mut station = filter(&[(name, "2")]);
        station.send(STDIN, 1, b"ab");
        let wanted = end(1, Stream::Stdin, of_stdin);
        assert_eq!(station.send(STDIN, 1, &[]), wanted);
        station.send(DATA, 1, b"cd");
        assert_eq!(station.send(DATA, 1, &[]), end(1, Stream::Data, of_data));
    }
}

#[test]
fn a_full_count_is_over_against_every_length() {
    for (value, word) in [
        ("0", Word::Over),
        ("4294967293", Word::Over),
        ("4294967294", Word::Over),
        ("4294967295", Word::Unstated),
        ("", Word::Unstated),
    ] {
        let list = list_of(&[("CONTENT_LENGTH", value)]);
        assert_eq!(word_for(u32::MAX, &list, Stream::Stdin), word);
        assert_eq!(word_for(u32::MAX, &list, Stream::Data), Word::Unstated);
    }
}

/// The end goes by what the store and the length say at that time.
#[test]
fn lists_that_the_caller_damaged() {
    let pairs = [("A", "1"), ("CONTENT_LENGTH", "2"), ("CONTENT_LENGTX", "3")];
    let stdin = |change: fn(&mut Station)| {
        let mut station = filter(&pairs);
        station.send(STDIN, 1, b"ab");
        change(&mut station);
        match station.send(STDIN, 1, &[])[..] {
            [Told::Event(Event::End { word, .. })] => word,
            ref other => panic!("{other:?}"),
        }
    };
    assert_eq!(stdin(|_| {}), Word::Exact);
    // The first of two decides, also where it states nothing.
    assert_eq!(stdin(|s| s.store[36] = b'H'), Word::Exact);
    let both: fn(&mut Station) = |s| (s.store[36], s.store[20]) = (b'H', b'x');
    assert_eq!(stdin(both), Word::Unstated);
    let second: fn(&mut Station) = |s| (s.store[36], s.store[19]) = (b'H', b'Y');
    assert_eq!(stdin(second), Word::Short);
    // A malformed pair behind it does not matter; one before it, or the pair itself, does.
    assert_eq!(stdin(|s| s.store[21] = 255), Word::Exact);
    assert_eq!(stdin(|s| s.store[4] = 255), Word::Unstated);
    assert_eq!(stdin(|s| s.store[0] = 255), Word::Unstated);
    // The list ends behind the pair, or inside it.
    assert_eq!(stdin(|s| s.connection.slots[0].length = 21), Word::Exact);
    assert_eq!(stdin(|s| s.connection.slots[0].length = 20), Word::Unstated);
    assert_eq!(stdin(|s| s.connection.slots[0].length = 0), Word::Unstated);
    assert_eq!(stdin(|s| s.store.fill(0)), Word::Unstated);
}

/// A list beside it, in another request's area, is not looked at.
#[test]
fn only_the_requests_own_area() {
    let list = list_of(&[("CONTENT_LENGTH", "1")]);
    let mut station = Station::new();
    for id in 1..=2 {
        station.open(id, KEEP);
    }
    station.send(PARAMS, 2, &list);
    for id in 1..=2 {
        station.send(PARAMS, id, &[]);
        station.send(STDIN, id, b"x");
    }
    assert_eq!(stated_length(&list, Stream::Stdin), Some(1));
    let words = [(1, Word::Unstated), (2, Word::Exact)];
    for (id, word) in words {
        assert_eq!(station.send(STDIN, id, &[]), end(id, Stream::Stdin, word));
    }
}

#[test]
fn in_words_and_in_the_digest() {
    let words = [
        (Word::Short, "short"),
        (Word::Exact, "exact"),
        (Word::Over, "over"),
        (Word::Unstated, "unstated"),
    ];
    let names = [(Stream::Stdin, "stdin", 5), (Stream::Data, "data", 8)];
    for (stream, name, number) in names {
        for (i, (word, text)) in words.into_iter().enumerate() {
            let event = Event::End {
                id: 7,
                stream,
                word,
            };
            assert_eq!(event_text(&event, &[]), format!("end 7 {name} {text}"));
            let event = Some(event);
            let sum = mixed(0, &Ok::<_, Refusal>(Step { used: 8, event }));
            assert_eq!(sum, 4 + (7 << 8) + (number << 24) + ((i as u64) << 32));
        }
    }
}

#[test]
fn replayed() {
    let mut capture = record(BEGIN, 1, &role(3, 1));
    let pairs = [("FCGI_DATA_LENGTH", "1"), ("CONTENT_LENGTH", "2")];
    capture.extend(record(PARAMS, 1, &list_of(&pairs)));
    capture.extend(record(PARAMS, 1, &[]));
    capture.extend(record(STDIN, 1, b"a"));
    capture.extend(record(STDIN, 1, &[]));
    capture.extend(record(DATA, 1, b"b"));
    capture.extend(record(DATA, 1, &[]));
    let wanted = "open 1 filter keep\nready 1 36\nbyte 1 stdin 61\nend 1 stdin short\n\
                  byte 1 data 62\nend 1 data exact\nstop open\n";
    for size in 1..=capture.len() {
        assert_eq!(replay(&capture, size), wanted);
    }
}
