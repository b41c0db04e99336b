//! Captures replayed: a line for each event and each data byte, whatever the pieces are.

use compare::replay::replay;
use std::fs;
use std::path::{Path, PathBuf};

fn repository() -> PathBuf {
    Path::new(env!("CARGO_MANIFEST_DIR")).join("..")
}

#[test]
fn worked_case() {
    let mut capture = vec![1, 1, 0, 1, 0, 8, 0, 0, 0, 1, 1, 0, 0, 0, 0, 0];
    capture.extend([1, 4, 0, 1, 0, 15, 1, 0]);
    capture.extend(b"\x0b\x02SERVER_PORT80\0");
    capture.extend([1, 4, 0, 1, 0, 0, 0, 0]);
    capture.extend(b"\x01\x05\x00\x01\x00\x01\x00\x00-\x01\x05\x00\x01\x00\x02\x00\x0018");
    capture.extend([1, 5, 0, 1, 0, 0, 0, 0]);
    let wanted = "open 1 responder keep\nready 1 15\nbyte 1 stdin 2d\nbyte 1 stdin 31\n\
                  byte 1 stdin 38\nend 1 stdin unstated\nstop open\n";
    for size in 1..capture.len() + 1 {
        assert_eq!(replay(&capture, size), wanted);
    }
    assert_eq!(
        replay(&capture[..capture.len() - 1], 9).lines().last(),
        Some("stop cut")
    );
    assert_eq!(replay(&[], 1), "stop open\n");
}

#[test]
fn three_requests_side_by_side() {
    let capture = fs::read(repository().join("samples/multiplexed.bin")).unwrap();
    let lines = replay(&capture, capture.len());
    for size in [1, 7, 8, 100] {
        assert_eq!(replay(&capture, size), lines);
    }
    let bytes = |id: &str| -> Vec<u8> {
        lines
            .lines()
            .filter_map(|line| line.strip_prefix(&format!("byte {id} stdin ")))
            .map(|hex| u8::from_str_radix(hex, 16).unwrap())
            .collect()
    };
    assert_eq!(bytes("7"), b"first of sevensecond of seven");
    assert_eq!(bytes("8"), b"first of eight");
    let others: Vec<_> = lines
        .lines()
        .filter(|line| !line.starts_with("byte"))
        .collect();
    let wanted = [
        "open 7 responder keep",
        "open 8 responder keep",
        "open 300 responder keep",
        "ready 8 119",
        "ready 7 119",
        "abort 300",
        "end 8 stdin unstated",
        "end 7 stdin unstated",
        "stop open",
    ];
    assert_eq!(others, wanted);
}

/// What a capture tells about the lists of its requests.
fn told(name: &str) -> String {
    let file = format!("samples/captures/{name}.bin");
    let lines = replay(&fs::read(repository().join(file)).unwrap(), 1_000);
    let of_lists = |line: &&str| line.starts_with("ready") || line.starts_with("fault");
    let found: Vec<_> = lines.lines().filter(of_lists).map(String::from).collect();
    found.join(", ")
}

/// Captures in which a web server names a parameter twice; the other requests of the connection are ready.
#[test]
fn captures_that_repeat_a_name() {
    assert_eq!(told("nginx-empty"), "fault 1 26");
    let wanted = "ready 1 373, fault 3 26, ready 5 425, ready 7 425";
    assert_eq!(told("haproxy-mpxs"), wanted);
    assert_eq!(told("lighttpd-headers"), "ready 1 4041");
}

/// What the ends of bodies in a capture say.
fn ends(name: &str) -> Vec<String> {
    let file = format!("samples/captures/{name}.bin");
    let lines = replay(&fs::read(repository().join(file)).unwrap(), 1_000);
    let ends = lines.lines().filter(|line| line.starts_with("end"));
    ends.map(String::from).collect()
}

/// A web server states the length of what it sends; of a request without a body, as 0, as an empty value or not at all.
#[test]
fn captures_with_bodies() {
    let names = ["nginx-post-small", "caddy-get", "nginx-get", "h2o-get"];
    let words = ["exact", "exact", "unstated", "unstated"];
    for (name, word) in names.into_iter().zip(words) {
        assert_eq!(ends(name), [format!("end 1 stdin {word}")], "{name}");
    }
    let wanted = [1, 7, 5].map(|id| format!("end {id} stdin exact"));
    assert_eq!(ends("haproxy-mpxs"), wanted);
}

#[test]
fn a_capture_with_a_malformed_list() {
    assert_eq!(told("go-test-malformed-params"), "fault 1 25 at 0");
}

/// What the proved replay is held to.
#[test]
fn capture_of_the_replay_program() {
    let folder = repository().join("crates/replay");
    let capture = fs::read(folder.join("stdin")).unwrap();
    let wanted = fs::read_to_string(folder.join("stdout")).unwrap();
    for size in [1, 8, 65_536] {
        assert_eq!(replay(&capture, size), wanted);
    }
}
