//! What a console told in a run, sorted by request.

use super::run::{events, used, Run, Whose};
use crate::drive::shortened;
use std::collections::BTreeMap;

#[derive(Default)]
pub struct Told {
    /// The events of each request and the answers to its calls, in order; data that nothing of the request comes
    /// between is joined. Under 0 stands what is left of all together.
    pub of: BTreeMap<u16, Vec<String>>,
    /// Lines that no such run may have: a close, a refusal, an event that names no request, other bytes used than the
    /// script was made for, or no answer.
    pub astray: Vec<String>,
}

impl Told {
    pub fn new(run: &Run, answers: &[Vec<u8>]) -> Told {
        let mut told = Told::default();
        let script = &run.script;
        for (i, whose) in run.whose.iter().enumerate() {
            let command = String::from_utf8_lossy(&script.lines[i]);
            let Some(answer) = answers.get(i) else {
                told.astray.push(format!("line {}: no answer", i + 1));
                break;
            };
            let answer = String::from_utf8_lossy(answer);
            let as_made = match whose {
                Whose::Start => answer == "open",
                Whose::Bytes => {
                    let mut as_made = used(&answer) == used(&script.answers[i]);
                    for event in events(&answer) {
                        as_made &= told.event(event);
                    }
                    as_made
                }
                Whose::Of(id) => {
                    // A mark that no event begins with.
                    told.add(*id, format!("> {command}: {answer}"));
                    true
                }
                Whose::All => {
                    // Where the bytes of the store lie depends on the slots, and how many there are does not.
                    let most = if command == "store" { 2 } else { usize::MAX };
                    let words: Vec<&str> = answer.split(' ').take(most).collect();
                    told.add(0, format!("> {command}: {}", words.join(" ")));
                    true
                }
                Whose::Nobody => true,
            };
            if !as_made {
                told.astray.push(format!(
                    "line {}: {}\n  made for: {}\n  here:     {}",
                    i + 1,
                    shortened(command.as_bytes()),
                    shortened(script.answers[i].as_bytes()),
                    shortened(answer.as_bytes()),
                ));
            }
        }
        if answers.len() > run.whose.len() {
            told.astray.push("more answers than lines".into());
        }
        told
    }

    fn add(&mut self, id: u16, entry: String) {
        self.of.entry(id).or_default().push(entry);
    }

    /// Adds an event to those of its request. Answers whether it names one.
    fn event(&mut self, event: &str) -> bool {
        let words: Vec<&str> = event.split(' ').collect();
        let ["open" | "ready" | "data" | "end" | "abort" | "refuse" | "fault", id, ..] = words[..]
        else {
            return false;
        };
        let Some(id) = id.parse().ok().filter(|&id| id > 0) else {
            return false;
        };
        if let ["data", _, stream, bytes] = words[..] {
            let start = format!("data {id} {stream} ");
            let last = self.of.get_mut(&id).and_then(|entries| entries.last_mut());
            if let Some(last) = last.filter(|last| last.starts_with(&start)) {
                last.push_str(bytes);
                return true;
            }
        }
        self.add(id, event.into());
        true
    }
}
