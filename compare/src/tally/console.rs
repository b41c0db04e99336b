//! The kinds of lines and answers of the console.

mod correction;
mod queue;

/// What a `feed` tells is counted event by event.
pub fn kinds(line: &[u8], answer: &str) -> Vec<String> {
    let mut kinds: Vec<String> = answer.split("; ").map(|part| kind(line, part)).collect();
    kinds.extend(
        correction::kinds(line, answer)
            .into_iter()
            .map(String::from),
    );
    kinds.extend(queue::kinds(line, answer).into_iter().map(String::from));
    kinds
}

/// The kinds that a complete comparison has to meet.
pub fn wanted() -> Vec<String> {
    let mut wanted = Vec::new();
    for (call, numbers) in REFUSALS {
        wanted.extend(numbers.iter().map(|n| format!("{call}: refused {n}")));
    }
    for call in ["step", "next", "feed"] {
        wanted.extend([11, 12, 13].map(|n| format!("{call}: closed {n}")));
        wanted.extend([21, 22, 23, 24, 26].map(|n| format!("{call}: fault {n}")));
        for word in ["short", "exact", "over", "unstated"] {
            wanted.extend(["stdin", "data"].map(|s| format!("{call}: end {s} {word}")));
        }
        wanted.extend(PLACES.map(|place| format!("{call}: closed 14 {place}")));
        wanted.extend(PLACES.map(|place| format!("{call}: fault 25 {place}")));
        wanted.extend((0..8).map(|n| format!("{call}: query {n:03b}")));
        wanted.extend(
            [
                "refuse 2", "refuse 3", "open", "ready", "data", "abort", "unknown", "used",
            ]
            .map(|event| format!("{call}: {event}")),
        );
    }
    wanted.extend(PLACES.map(|place| format!("walk: malformed {place}")));
    // The end of a body has no byte in it, so 34 is never new to a read.
    for n in [31, 32, 33] {
        wanted.extend([ANEW, AGAIN].map(|at| format!("read: refused {n} {at}")));
    }
    wanted.push(format!("read: refused 34 {AGAIN}"));
    wanted.extend(OTHERS.map(String::from));
    wanted.extend(correction::WANTED.map(String::from));
    wanted.extend(queue::WANTED.map(String::from));
    wanted
}

/// Where a list is malformed: in its first pair, or in one behind good pairs. Most mistakes show only at a place over
/// 0, and some only at one that takes up two bytes.
const PLACES: [&str; 3] = ["at 0", "at 1 to 255", "at 256 or more"];

/// Which of these a place is.
fn place_kind(place: &str) -> &'static str {
    match place.parse::<u16>() {
        Ok(0) => PLACES[0],
        Ok(1..=255) => PLACES[1],
        _ => PLACES[2],
    }
}

/// The refusal of a body: at the byte that shows it, or at 0 where it was refused before.
const ANEW: &str = "over 0";
const AGAIN: &str = "at 0";

/// Answers of calls that tell no event.
const OTHERS: [&str; 17] = [
    "walk: end",
    "finish: open",
    "finish: closed",
    "store: zeros",
    "store: store",
    "counts: none",
    "counts: zeros",
    "counts: some",
    "counts: full",
    "reading: wrote",
    "read: reading below zero",
    "read: reading from zero up",
    "read: used",
    "body: clean",
    "body: ok",
    "what",
    "long",
];

/// A count that stays as it is, whatever else is shown.
const FULL: &str = "4294967295";

/// The numbers that each call can give.
const REFUSALS: [(&str, &[u8]); 20] = [
    ("start", &[2]),
    ("step", &[2, 9, 1]),
    ("next", &[2, 9, 1]),
    ("feed", &[2, 9, 1]),
    ("value", &[2, 9, 1, 3, 4]),
    ("pair", &[2, 9, 1, 3, 4, 7]),
    ("walk", &[2, 9, 1, 3, 4]),
    ("say", &[9, 1, 3, 4, 5, 6, 10]),
    ("end", &[9, 1, 3, 4, 5, 6, 10]),
    ("finish", &[2, 9, 1, 3, 5, 6, 10]),
    ("queue say", &[2, 9, 1, 3, 4, 5, 10]),
    ("queue end", &[9, 1, 3, 4, 5]),
    ("queue finish", &[9, 1, 3, 5]),
    ("pump", &[2, 9, 1, 6]),
    ("owed", &[6]),
    ("put", &[8, 6]),
    ("active", &[9, 1]),
    ("reading", &[33, 6]),
    ("body", &[31, 32, 33, 34]),
    ("correct", &[41, 42, 43, 44]),
];

/// The call, and the answer without what differs from request to request.
fn kind(line: &[u8], answer: &str) -> String {
    let words: Vec<&str> = answer.split(' ').collect();
    let what = match words[..] {
        ["what" | "long"] => return answer.into(),
        // What a step or a next tells stands behind the bytes that it used.
        ["used", _, ref event @ ..] if !event.is_empty() => event_kind(event),
        ["walk", .., "malformed", "at", place] => format!("malformed {}", place_kind(place)),
        ["walk", .., "end", _] => "end".into(),
        ["store", "0"] | ["counts", "0", "0"] => "zeros".into(),
        ["counts", FULL, _] | ["counts", _, FULL] => "full".into(),
        ["counts", _, _] => "some".into(),
        ["refused", n, "at", "0"] => format!("refused {n} {AGAIN}"),
        ["refused", n, "at", _] => format!("refused {n} {ANEW}"),
        ["reading", _, tenths, _] if tenths.starts_with('-') => "reading below zero".into(),
        ["reading", ..] => "reading from zero up".into(),
        ["refused", n, ..] => format!("refused {n}"),
        ["wrote", _, _, end] | ["pumped", _, _, _, end] => end.into(),
        _ => event_kind(&words),
    };
    let line = String::from_utf8_lossy(line);
    let words = if line.starts_with("queue ") { 2 } else { 1 };
    let call: Vec<&str> = line.split(' ').take(words).collect();
    format!("{}: {what}", call.join(" "))
}

/// An event without the id and with what says which of its kind it is; of other answers the first word.
fn event_kind(words: &[&str]) -> String {
    match *words {
        [event @ "fault", _, n, "at", place] | [event @ "closed", n, "at", place] => {
            format!("{event} {n} {}", place_kind(place))
        }
        ["end", _, stream, word] => format!("end {stream} {word}"),
        [event @ ("refuse" | "fault"), _, n] | [event @ ("query" | "closed"), n] => {
            format!("{event} {n}")
        }
        [first, ..] => first.into(),
        [] => String::new(),
    }
}

#[cfg(test)]
mod tests {
    use super::*;
    use std::collections::BTreeSet;

    #[test]
    fn kinds_of_readings() {
        let mut all = BTreeSet::new();
        for (line, answer) in [
            (
                "read 00",
                "reading 1 -184 5; reading 1 0 5; refused 32 at 9",
            ),
            ("read 00", "refused 32 at 0"),
            ("read 00", "used 1"),
            ("body end", "clean"),
            ("body end", "refused 34"),
            ("body new", "ok"),
            ("reading 1 2 3 4", "wrote 3 010403"),
            ("reading 1 2 3 0", "refused 6"),
        ] {
            all.extend(kinds(line.as_bytes(), answer));
        }
        assert_eq!(
            Vec::from_iter(all),
            [
                "body: clean",
                "body: ok",
                "body: refused 34",
                "read: reading below zero",
                "read: reading from zero up",
                "read: refused 32 at 0",
                "read: refused 32 over 0",
                "read: used",
                "reading: refused 6",
                "reading: wrote",
            ]
        );
    }
}
