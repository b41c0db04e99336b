//! Headers, lengths and pairs: the cases at the edges that speak of bytes alone.

use compare::answer::Refusal;
use compare::pairs::{pair_length, read_length, well_formed, write_pair, Pairs};
use compare::wire::Header;

#[test]
fn header_of_stdin() {
    let header = Header::read(&[1, 5, 0, 1, 0, 3, 5, 0]);
    assert_eq!((header.version, header.kind, header.id), (1, 5, 1));
    assert_eq!((header.content, header.padding), (3, 5));
    assert_eq!(Header::read(&[1, 5, 0, 1, 0, 3, 5, 9]), header);
    assert_eq!(header.to_bytes(), [1, 5, 0, 1, 0, 3, 5, 0]);
}

#[test]
fn lengths() {
    assert_eq!(read_length(&[0x7f], 0), Some((127, 1)));
    assert_eq!(read_length(&[0x80, 0, 0, 0x80], 0), Some((128, 4)));
    assert_eq!(read_length(&[0x80, 0, 0, 0xc8], 0), Some((200, 4)));
    assert_eq!(read_length(&[0x80, 0, 0, 0x7f], 0), Some((127, 4)));
    assert_eq!(read_length(&[0x80, 0, 0, 0], 0), Some((0, 4)));
    assert_eq!(read_length(&[9, 0x80, 0, 0, 1], 1), Some((1, 5)));
    assert_eq!(read_length(&[0x80, 0, 0], 0), None);
    assert_eq!(read_length(&[0xff; 4], 0), Some((2_147_483_647, 4)));
    assert_eq!(read_length(&[], 0), None);
    assert_eq!(read_length(&[1], 2), None);
}

#[test]
fn one_pair() {
    let list = b"\x0b\x02SERVER_PORT80";
    let pair = Pairs::new(list).next().unwrap();
    assert_eq!(pair.name(list), b"SERVER_PORT");
    assert_eq!(pair.value(list), b"80");
    assert_eq!(list.len(), 15);
    assert!(well_formed(list));
    assert!(!well_formed(&list[..14]));
    assert_eq!(Pairs::new(&list[..14]).next(), None);
}

/// Two lengths of nearly 2^31 are no pair; nothing overflows.
#[test]
fn huge_lengths() {
    let mut list = vec![0xff; 8];
    list.extend([1, 2, 3]);
    assert!(!well_formed(&list));
}

#[test]
fn empty_lists_names_and_values() {
    assert!(well_formed(&[]));
    assert!(well_formed(&[0, 0]));
    assert_eq!(Pairs::new(&[0, 0, 0, 0]).count(), 2);
    assert!(!well_formed(&[0]));
    // Pairs end before the malformed one, and stay there.
    let mut pairs = Pairs::new(&[0, 0, 1, 0]);
    assert!(pairs.next().is_some());
    assert!(pairs.next().is_none());
    assert!(pairs.next().is_none());
    assert_eq!(pairs.place(), 2);
}

/// The bytes 14 and 4, which a digest of the specification prints as digits.
#[test]
fn request_method() {
    let list = b"\x0e\x04REQUEST_METHODPOST";
    let pair = Pairs::new(list).next().unwrap();
    assert_eq!(
        (pair.name(list), pair.value(list)),
        (&b"REQUEST_METHOD"[..], &b"POST"[..])
    );
}

#[test]
fn all_forms_of_lengths_read_back() {
    for name in [0, 1, 127, 128, 65_535] {
        for value in [0, 1, 127, 128, 65_535] {
            let (name, value) = (vec![7; name], vec![8; value]);
            let length = pair_length(&name, &value);
            let mut buffer = vec![0xee; length + 3];
            assert_eq!(write_pair(&mut buffer, &name, &value), Ok(length));
            assert_eq!(buffer[length..], [0xee; 3]);
            let list = &buffer[..length];
            let mut pairs = Pairs::new(list);
            let pair = pairs.next().unwrap();
            assert_eq!((pair.name(list), pair.value(list)), (&name[..], &value[..]));
            assert_eq!(pairs.place(), length);
        }
    }
}

/// Whatever the form that is read, the shortest one is written: the same pairs, in other bytes.
#[test]
fn long_lengths_are_written_short() {
    let shortest = b"\x0e\x03REQUEST_METHODGET\x00\x00\x01\x00E\x00\x01v";
    let mut long = Vec::new();
    for pair in Pairs::new(shortest) {
        let (name, value) = (pair.name(shortest), pair.value(shortest));
        long.extend([0x80, 0, 0, name.len() as u8, 0x80, 0, 0, value.len() as u8]);
        long.extend([name, value].concat());
    }
    assert_eq!(long.len(), shortest.len() + 4 * 6);
    assert!(well_formed(&long));
    let mut written: Vec<u8> = Vec::new();
    for pair in Pairs::new(&long) {
        let mut buffer = [0; 40];
        let length = write_pair(&mut buffer, pair.name(&long), pair.value(&long)).unwrap();
        written.extend(&buffer[..length]);
    }
    assert_eq!(written, shortest);
    // Four pairs, and no end elsewhere is an end of the list.
    let ends = (0..=long.len()).filter(|&end| well_formed(&long[..end]));
    assert_eq!(ends.count(), 5);
}

#[test]
fn refusals_of_a_pair() {
    let mut buffer = [0xee; 4];
    assert_eq!(write_pair(&mut buffer, b"ab", b"c"), Err(Refusal::NoRoom));
    // 8 before 6.
    let long = vec![0; 65_536];
    assert_eq!(write_pair(&mut buffer, &long, b""), Err(Refusal::TooLong));
    assert_eq!(write_pair(&mut buffer, b"", &long), Err(Refusal::TooLong));
    assert_eq!(buffer, [0xee; 4]);
    assert_eq!(write_pair(&mut buffer, b"a", b"c"), Ok(4));
}
