//! The comparison of lifts: it notices lifts that are wrong, by their copy or by their verdict.

mod common;

use common::{padded, record, KEEP};
use compare::lift::bench::{difference, ids_to_try, lines_of};
use compare::lift::mistakes::{mistaken, Mistake, MISTAKES};
use compare::lift::{lift, said, Lifted, Said, Verdict};
use compare::random::Random;
use compare::scripts::capture;
use compare::wire::kind;
use std::fs;
use std::os::unix::fs::PermissionsExt;
use std::path::Path;
use std::process::{Command, Output};

/// An early record, a padded BEGIN and a body, and then the record that closes.
fn small_capture() -> Vec<u8> {
    let mut closing = record(kind::STDIN, 5, b"z");
    closing[0] = 0;
    let records = [
        record(kind::STDIN, 5, b"early"),
        padded(kind::BEGIN, 5, &KEEP, 2),
        record(kind::STDIN, 6, b"other"),
        record(kind::STDIN, 5, b"x"),
        closing,
        record(kind::STDIN, 5, b"behind"),
    ];
    records.concat()
}

/// What has to come of it is written out here, byte by byte.
#[test]
fn wrong_rules_by_hand() {
    let capture = small_capture();
    let right = b"\x01\x01\x00\x05\x00\x08\x00\xaa\x00\x01\x01\x00\x00\x00\x00\x00\
                  \x01\x05\x00\x05\x00\x01\x00\xaax";
    let line = "closed 11 at 53";
    let says = |copy: &[u8], line: &str| Said {
        copy: copy.into(),
        line: line.into(),
    };
    let wanted = says(right, line);
    assert_eq!(said(&capture, 5), wanted);
    assert_eq!(difference(&wanted, &said(&capture, 5)), None);

    let mut padding = right.to_vec();
    padding[6] = 2;
    padding.splice(16..16, [0xbb, 0xbb]);
    let early = [b"\x01\x05\x00\x05\x00\x05\x00\xaaearly", &right[..]].concat();
    let closing = [right, &b"\x00\x05\x00\x05\x00\x01\x00\xaaz"[..]].concat();
    let past = [right, &b"\x01\x05\x00\x05\x00\x06\x00\xaabehind"[..]].concat();
    for (mistake, copy) in [
        (Mistake::PaddingKept, padding),
        (Mistake::BeforeBegin, early),
        (Mistake::ClosingCopied, closing),
        (Mistake::PastTheClose, past),
    ] {
        let got = mistaken(&capture, 5, Some(mistake));
        assert_eq!(got, says(&copy, line));
        assert!(difference(&wanted, &got).is_some(), "{mistake:?}");
    }
    let got = mistaken(&capture, 5, Some(Mistake::OffsetOfDecision));
    assert_eq!(got, says(right, "closed 11 at 61"));
    assert!(difference(&wanted, &got).is_some());
}

/// Each mistake is noticed in random captures, and what makes none is right everywhere.
#[test]
fn mistakes_in_random_captures() {
    let mut noticed = MISTAKES.map(|_| 0);
    for seed in 0..400 {
        let capture = capture(seed);
        for id in ids_to_try(&mut Random::new(seed), &capture) {
            let wanted = said(&capture, id);
            assert_eq!(mistaken(&capture, id, None), wanted);
            for (count, mistake) in noticed.iter_mut().zip(MISTAKES) {
                let got = mistaken(&capture, id, Some(mistake));
                *count += usize::from(difference(&wanted, &got).is_some());
            }
        }
    }
    let counts: Vec<_> = noticed.iter().zip(MISTAKES).collect();
    assert!(noticed.iter().all(|&count| count > 0), "{counts:?}");
}

/// What follows from the words, without a second lift to compare with: a capture that closes says as much as what is
/// before that record, a beginning of a capture gives a beginning of the copy, and a copy is its own copy.
#[test]
fn beginnings_and_copies() {
    let mut closed = 0;
    for seed in 0..150 {
        let capture = capture(seed);
        let mut random = Random::new(seed);
        for id in ids_to_try(&mut random, &capture) {
            let Ok(Lifted { copy, verdict }) = lift(&capture, id) else {
                continue;
            };
            let mut read = capture.len();
            if let Verdict::Closed { offset, .. } = verdict {
                read = offset as usize;
                let before = lift(&capture[..read], id).unwrap();
                assert_eq!(
                    (before.copy, before.verdict),
                    (copy.clone(), Verdict::Clean)
                );
                closed += 1;
            }
            for _ in 0..20 {
                let beginning = lift(&capture[..random.index(read + 1)], id).unwrap();
                assert!(copy.starts_with(&beginning.copy));
                assert!(!matches!(beginning.verdict, Verdict::Closed { .. }));
            }
            let again = lift(&copy, id).unwrap();
            assert_eq!(again.copy, copy);
            assert!(!matches!(again.verdict, Verdict::Closed { .. }));
        }
    }
    assert!(closed > 50);
}

#[test]
fn lines_of_a_request() {
    let lines = "open 11 filter keep\nopen 1 filter keep\nunknown 11\nquery 011\nquery 11\n\
                 byte 11 stdin 01\nfault 11 25 at 1\nfault 1 22\nend 11 data over\nclosed 11\n\
                 stop closed\n";
    let of_11 = "open 11 filter keep\nbyte 11 stdin 01\nfault 11 25 at 1\nend 11 data over\n";
    assert_eq!(lines_of(lines, 11), of_11);
    assert_eq!(lines_of(lines, 1), "open 1 filter keep\nfault 1 22\n");
    assert_eq!(lines_of(lines, 101), "");
}

fn lifts(words: &[&str]) -> (Output, String) {
    let output = Command::new(env!("CARGO_BIN_EXE_lifts"))
        .args(words)
        .output()
        .unwrap();
    let text = String::from_utf8_lossy(&output.stdout).into_owned();
    (output, text)
}

/// The programs themselves. They are run by one test, so that no other one starts a process while a script is written.
#[test]
fn programs() {
    let lifted = env!("CARGO_BIN_EXE_lifted");
    let folder = Path::new(env!("CARGO_TARGET_TMPDIR"));
    let file = folder.join("small.bin");
    fs::write(&file, small_capture()).unwrap();
    let small = file.to_str().unwrap();

    // With itself `lifted` agrees, and the replays do.
    let replayed = env!("CARGO_BIN_EXE_replayed");
    let (_, text) = lifts(&["--replay", replayed, "--captures", "30", small]);
    assert!(text.contains(": no difference ("), "{text}");
    // So few captures have not everything in them, which is said and fails.
    let (output, text) = lifts(&["--lift", lifted, "--captures", "0", small]);
    assert!(text.contains("never came: clean\n"), "{text}");
    assert!(!text.contains("never came: closed 11\n"), "{text}");
    assert_eq!(output.status.code(), Some(1));

    // Programs that are wrong: in the verdict, in the copy, in both, and in the replay.
    let script = |name: &str, text: &str| {
        let path = folder.join(name);
        fs::write(&path, format!("#!/bin/sh\n{text}\n")).unwrap();
        fs::set_permissions(&path, fs::Permissions::from_mode(0o755)).unwrap();
        path.to_str().unwrap().to_string()
    };
    let clean = script(
        "clean.sh",
        &format!("{lifted} \"$1\" 2> /dev/null; echo clean >&2"),
    );
    let shorter = script("shorter.sh", &format!("{lifted} \"$1\" | head -c 24"));
    let failing = script("failing.sh", &format!("{lifted} \"$1\"; exit 3"));
    let silent = script("silent.sh", "exit 0");
    for (program, what) in [
        (&clean, "id 5: `clean` is said, and not `closed 11 at 53`"),
        (
            &shorter,
            "id 5: 24 bytes are copied, and not 25; they differ from 24 on",
        ),
        (&failing, "(exit status: 3)` is said"),
        (&silent, "(without a newline)` is said"),
    ] {
        let (output, text) = lifts(&["--lift", program, "--captures", "0", small]);
        assert!(text.contains(what), "{text}");
        assert!(text.starts_with(&format!("{small}: id 5: ")), "{text}");
        assert_eq!(output.status.code(), Some(1));
    }
    let (output, text) = lifts(&["--replay", &silent, "--captures", "0", small]);
    assert!(text.contains("replays it otherwise"), "{text}");
    assert_eq!(output.status.code(), Some(1));

    // The file of a random capture is kept where it shows a difference.
    let (_, text) = lifts(&["--lift", &silent, "--captures", "1"]);
    let kept = text.split(": ").next().unwrap();
    assert!(fs::read(kept).is_ok(), "{text}");
    fs::remove_file(kept).unwrap();

    // Called wrong.
    for words in [&["65536"][..], &["-1"], &["+1"], &["1", "2"], &[]] {
        let output = Command::new(lifted).args(words).output().unwrap();
        assert_eq!(output.status.code(), Some(2), "{words:?}");
    }
}
