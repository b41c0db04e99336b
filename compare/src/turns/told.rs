//! What a console told of the request in a run.

use super::written::{records, Part, Said};
use super::Round;
use crate::console::words::bytes;
use crate::drive::shortened;
use crate::scripts::turns::Line;
use crate::shuffles::{events, used};
use crate::state::SLOTS;

#[derive(Default)]
pub struct Told {
    /// The request's events and the answers to its calls, in order; data that nothing of the request comes between is
    /// joined. Of a call while it is leaving, in either run, only that it came.
    pub entries: Vec<String>,
    /// What was written of the request, straight or by the pump.
    pub written: Vec<Part>,
    /// Records of the request that the pump wrote.
    pub pumped: usize,
    /// Lines that no such run may have, and promises that it does not keep.
    pub astray: Vec<String>,
}

/// What is followed through a run.
struct Follow {
    id: u16,
    told: Told,
    said: Said,
    /// Records of others that the pump wrote while something of the request waits.
    others: usize,
}

impl Told {
    pub fn new(round: &Round, run: usize, answers: &[Vec<u8>]) -> Told {
        let mut follow = Follow {
            id: round.pair.id,
            told: Told::default(),
            said: Said::default(),
            others: 0,
        };
        let run = &round.pair.runs[run];
        for (i, kind) in run.lines.iter().enumerate() {
            let line = String::from_utf8_lossy(&run.script.lines[i]);
            let Some(answer) = answers.get(i) else {
                follow.astray(format!("line {}: no answer", i + 1));
                break;
            };
            let answer = String::from_utf8_lossy(answer);
            let made = &run.script.answers[i];
            let as_made = match kind {
                Line::Start => answer == "open",
                Line::Bytes => {
                    events(&answer).for_each(|event| follow.event(event));
                    used(&answer) == used(made)
                }
                Line::Call { number, .. } => {
                    let leaving = round.leaving.contains(number);
                    follow.call(&line, &answer, leaving)
                }
                Line::Turn => follow.turn(&answer),
                Line::Other => true,
            };
            if !as_made {
                follow.astray(format!(
                    "line {}: {}\n  made for: {}\n  here:     {}",
                    i + 1,
                    shortened(line.as_bytes()),
                    shortened(made.as_bytes()),
                    shortened(answer.as_bytes()),
                ));
            }
        }
        if answers.len() > run.lines.len() {
            follow.astray("more answers than lines".into());
        }
        if follow.said.parts != follow.told.written {
            follow.astray("what was written is not what was said".into());
        }
        follow.told
    }
}

impl Follow {
    fn astray(&mut self, text: String) {
        self.told.astray.push(text);
    }

    /// An event, if it names the request.
    fn event(&mut self, event: &str) {
        let words: Vec<&str> = event.split(' ').collect();
        let ["open" | "ready" | "data" | "end" | "abort" | "refuse" | "fault", id, ..] = words[..]
        else {
            return;
        };
        if id.parse() != Ok(self.id) {
            return;
        }
        if words[0] == "open" {
            self.said.opened();
        }
        if let ["data", _, stream, bytes] = words[..] {
            let start = format!("data {id} {stream} ");
            let last = self.told.entries.last_mut();
            if let Some(last) = last.filter(|last| last.starts_with(&start)) {
                last.push_str(bytes);
                return;
            }
        }
        self.told.entries.push(event.into());
    }

    /// A call of the request. Answers whether what it wrote are records of the request, and it was not refused because
    /// something waits.
    fn call(&mut self, line: &str, answer: &str, leaving: bool) -> bool {
        // A mark that no event begins with.
        self.told.entries.push(match leaving {
            true => format!("> {line}"),
            false => format!("> {line}: {answer}"),
        });
        let words: Vec<&str> = answer.split(' ').collect();
        match words[..] {
            ["refused", "10", ..] => return false,
            ["waits"] => {
                self.said.call(line);
            }
            ["wrote", _, written, ..] => {
                self.said.call(line);
                let Some(records) = bytes(written).and_then(|all| records(&all)) else {
                    return false;
                };
                for (id, parts) in records {
                    if id != self.id {
                        return false;
                    }
                    self.told.written.extend(parts);
                }
            }
            _ => {}
        }
        true
    }

    /// A turn. Answers whether it wrote whole records, as many as it says, and left the connection open; and whether it
    /// let the request wait for too long.
    fn turn(&mut self, answer: &str) -> bool {
        let words: Vec<&str> = answer.split(' ').collect();
        let ["pumped", number, _, written, "open"] = words[..] else {
            return false;
        };
        let Some(records) = bytes(written).and_then(|all| records(&all)) else {
            return false;
        };
        let mut as_promised = number.parse() == Ok(records.len());
        for (id, parts) in records {
            if id == self.id {
                self.told.written.extend(parts);
                self.told.pumped += 1;
                self.others = 0;
            } else if self.told.written.len() < self.said.parts.len() {
                self.others += 1;
                as_promised &= self.others < SLOTS;
            }
        }
        as_promised
    }
}
