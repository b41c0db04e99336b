//! The kinds of lines and answers of the bench.

/// What a `feed` tells is counted event by event. An opening is counted by its role and by KEEP_CONN too.
pub fn kinds(line: &[u8], answer: &str) -> Vec<String> {
    let text = String::from_utf8_lossy(line);
    let words: Vec<&str> = text.split(' ').collect();
    let mut kinds: Vec<String> = answer
        .split("; ")
        .map(|part| kind(words[0], part))
        .collect();
    if let (["open", _, role, keep, _], true) = (&words[..], answer.starts_with("wrote")) {
        kinds.push(format!("open: role {role} {keep}"));
    }
    kinds
}

/// The kinds that a complete comparison has to meet.
pub fn wanted() -> Vec<String> {
    let mut wanted = Vec::new();
    for (call, numbers) in REFUSALS {
        wanted.extend(numbers.iter().map(|n| format!("{call}: refused {n}")));
    }
    for role in 1..=3 {
        wanted.extend(["keep", "drop"].map(|flag| format!("open: role {role} {flag}")));
    }
    for call in ["open", "pair", "write", "end", "abort", "ask"] {
        wanted.push(format!("{call}: wrote"));
    }
    for call in ["step", "feed"] {
        wanted.extend((51..=56).map(|n| format!("{call}: closed {n}")));
        wanted.extend(EVENTS.map(|event| format!("{call}: {event}")));
    }
    wanted.extend(OTHERS.map(String::from));
    wanted
}

/// The numbers that each call can give.
const REFUSALS: [(&str, &[u8]); 9] = [
    ("open", &[9, 1, 57, 58, 59, 60, 6]),
    ("pair", &[9, 1, 3, 61, 8, 6]),
    ("write", &[9, 1, 3, 61, 6]),
    ("end", &[9, 1, 3, 61, 6]),
    ("abort", &[9, 1, 3, 61, 6]),
    ("ask", &[9, 1, 62, 6]),
    ("opened", &[9, 1]),
    ("step", &[9, 1]),
    ("feed", &[9, 1]),
];

const EVENTS: [&str; 14] = [
    "output stdout",
    "output stderr",
    "ended stdout",
    "ended stderr",
    "finished by 0",
    "finished by 1",
    "finished by 2",
    "finished by 3",
    "finished by another",
    "values of none",
    "values of some",
    "values of 512",
    "unknown",
    "used",
];

const OTHERS: [&str; 10] = [
    "write: wrote nothing",
    "pair: wrote over one record",
    "write: wrote over one record",
    "opened: none",
    "opened: some",
    "opened: 16",
    "values: zeros",
    "values: some",
    "what",
    "long",
];

/// The call, and the answer without what differs from request to request.
fn kind(call: &str, answer: &str) -> String {
    let words: Vec<&str> = answer.split(' ').collect();
    let what = match words[..] {
        ["what" | "long"] => return answer.into(),
        // What a step tells stands behind the bytes that it used.
        ["used", _, ref event @ ..] if !event.is_empty() => event_kind(event),
        ["refused", n, ..] => format!("refused {n}"),
        ["wrote", "0", ..] => "wrote nothing".into(),
        ["wrote", n, ..] if n.parse::<u32>().is_ok_and(|n| n > 8_192) => {
            "wrote over one record".into()
        }
        ["opened", "0"] => "none".into(),
        ["opened", "16"] => "16".into(),
        ["opened", _] => "some".into(),
        ["values", "-"] if call == "values" => "zeros".into(),
        ["values", _] if call == "values" => "some".into(),
        _ => event_kind(&words),
    };
    format!("{call}: {what}")
}

/// An event without the id and with what says which of its kind it is; of other answers the first word.
fn event_kind(words: &[&str]) -> String {
    match *words {
        [event @ "output", _, stream, _] | [event @ "ended", _, stream] => {
            format!("{event} {stream}")
        }
        ["finished", _, _, n @ ("0" | "1" | "2" | "3")] => format!("finished by {n}"),
        ["finished", ..] => "finished by another".into(),
        ["values", "-"] => "values of none".into(),
        ["values", list] if list.len() == 1_024 => "values of 512".into(),
        ["values", _] => "values of some".into(),
        ["closed", n] => format!("closed {n}"),
        [first, ..] => first.into(),
        [] => String::new(),
    }
}
