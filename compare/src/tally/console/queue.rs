//! What waits, and the records that the pump writes of it, by their kinds.

use crate::console::words::bytes;
use crate::wire::{kind, Header, HEADER};

/// What a complete comparison has to meet.
pub const WANTED: [&str; 35] = [
    "pump: open",
    "pump: closed",
    "pump: no record",
    "pump: as many records as allowed",
    "pump: fewer records than allowed",
    "pump: over 16 records",
    "pump: over 100 records",
    "pump: a record of STDOUT",
    "pump: a record of STDERR",
    "pump: the end of STDOUT",
    "pump: the end of STDERR",
    "pump: END",
    "pump: END with a status over 65535",
    "pump: 511 bytes",
    "pump: 512 bytes",
    "queue say: waits",
    "queue say: 1024 bytes wait at once",
    "queue say: no bytes wait",
    "queue end: waits",
    "queue finish: waits",
    "numbers: zeros",
    "numbers: some",
    "waits: none",
    "waits: nothing",
    "waits: data",
    "waits: 1024 bytes",
    "waits: over 1024 bytes",
    "waits: out",
    "waits: err",
    "waits: out,err",
    "waits: err,out",
    "waits: END",
    "waits: END behind data",
    "waits: a mark with ends",
    "waits: a mark over 9",
];

/// The kinds of a line beside those that every line has.
pub fn kinds(line: &[u8], answer: &str) -> Vec<&'static str> {
    let line = String::from_utf8_lossy(line);
    let asked: Vec<&str> = line.split(' ').collect();
    let told: Vec<&str> = answer.split(' ').collect();
    match (&asked[..], &told[..]) {
        (["pump", allowed, _], ["pumped", records, _, written, _]) => {
            pumped(allowed, records, &bytes(written).unwrap_or_default())
        }
        (["queue", "say", _, _, "-"], ["waits"]) => vec!["queue say: no bytes wait"],
        (["queue", "say", _, _, data], ["waits"]) if data.len() == 2_048 => {
            vec!["queue say: 1024 bytes wait at once"]
        }
        (["numbers"], ["numbers", all @ ..]) if all.iter().all(|&n| n == "0") => {
            vec!["numbers: zeros"]
        }
        (["numbers"], _) => vec!["numbers: some"],
        (["waits", _], ["waits", n, ends, status, _, marks]) => waits(n, ends, status, marks),
        _ => Vec::new(),
    }
}

fn pumped(allowed: &str, records: &str, mut written: &[u8]) -> Vec<&'static str> {
    let mut kinds = vec![if allowed == records {
        "pump: as many records as allowed"
    } else {
        "pump: fewer records than allowed"
    }];
    let records: u64 = records.parse().unwrap_or(0);
    kinds.extend((records == 0).then_some("pump: no record"));
    kinds.extend((records > 16).then_some("pump: over 16 records"));
    kinds.extend((records > 100).then_some("pump: over 100 records"));
    while let Some(header) = written.first_chunk::<HEADER>() {
        let header = Header::read(header);
        let content = usize::from(header.content);
        kinds.push(match (header.kind, content) {
            (kind::STDOUT, 0) => "pump: the end of STDOUT",
            (kind::STDERR, 0) => "pump: the end of STDERR",
            (kind::STDOUT, _) => "pump: a record of STDOUT",
            (kind::STDERR, _) => "pump: a record of STDERR",
            _ => "pump: END",
        });
        kinds.extend((content == 511).then_some("pump: 511 bytes"));
        kinds.extend((content == 512).then_some("pump: 512 bytes"));
        if header.kind == kind::END && written[HEADER..HEADER + 2] != [0, 0] {
            kinds.push("pump: END with a status over 65535");
        }
        written = &written[HEADER + content + usize::from(header.padding)..];
    }
    kinds
}

fn waits(n: &str, ends: &str, status: &str, marks: &str) -> Vec<&'static str> {
    let n: usize = n.parse().unwrap_or(0);
    let mut kinds = Vec::new();
    kinds.extend(match n {
        0 if ends == "-" && status == "-" => Some("waits: nothing"),
        0 => None,
        1_024 => Some("waits: 1024 bytes"),
        1..=1_023 => Some("waits: data"),
        _ => Some("waits: over 1024 bytes"),
    });
    kinds.extend(match ends {
        "out" => Some("waits: out"),
        "err" => Some("waits: err"),
        "out,err" => Some("waits: out,err"),
        "err,out" => Some("waits: err,out"),
        _ => None,
    });
    if status != "-" {
        kinds.push(if n > 0 {
            "waits: END behind data"
        } else {
            "waits: END"
        });
    }
    let marks = bytes(marks).unwrap_or_default();
    if marks.iter().any(|mark| (2..10).contains(mark)) {
        kinds.push("waits: a mark with ends");
    }
    if marks.iter().any(|&mark| mark > 9) {
        kinds.push("waits: a mark over 9");
    }
    kinds
}
