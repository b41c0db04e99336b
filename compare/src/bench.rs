//! The twin of the bench: every call of the server's end by a line of text, and its answer as a line. `docs/BENCH.md`
//! says which. It is always alone: the commands that need a station are no commands here.

mod feed;
mod poke;
mod text;

use crate::console::words::{bytes, hex, id, number, room};
use crate::console::LONGEST_LINE;
use crate::server::answer::{Input, Refusal, Step};
use crate::server::Server;

/// What a lent buffer is filled with before the call.
const FILL: u8 = 0xee;

#[derive(Clone)]
pub struct Bench {
    /// The state, and the values with it.
    pub server: Server,
    /// Both before a call that must not change them where it is refused.
    before: Server,
}

impl Default for Bench {
    fn default() -> Self {
        Bench {
            server: Server::closed(),
            before: Server::closed(),
        }
    }
}

impl Bench {
    /// The answer to a line, both without their newline.
    pub fn answer(&mut self, line: &[u8]) -> String {
        if line.len() > LONGEST_LINE {
            return "long".into();
        }
        std::str::from_utf8(line)
            .ok()
            .and_then(|text| self.command(&text.split(' ').collect::<Vec<_>>()))
            .unwrap_or_else(|| "what".into())
    }

    /// None for words that are no command. Words are taken apart before anything is done.
    fn command(&mut self, words: &[&str]) -> Option<String> {
        Some(match *words {
            ["start"] => {
                self.server.start();
                "open".into()
            }
            ["open", r, role, flag, size] => {
                let (r, role, keep) = (id(r)?, id(role)?, keep(flag)?);
                self.wrote(room(size)?, |server, buffer| {
                    server.open_request(r, role, keep, buffer)
                })
            }
            ["pair", r, name, value, size] => {
                let (r, name, value) = (id(r)?, bytes(name)?, bytes(value)?);
                self.wrote(room(size)?, |server, buffer| {
                    server.add_pair(r, &name, &value, buffer)
                })
            }
            ["write", r, stream, data, size] => {
                let (r, input, data) = (id(r)?, content_input(stream)?, bytes(data)?);
                self.wrote(room(size)?, |server, buffer| {
                    server.write_input(r, input, &data, buffer)
                })
            }
            ["end", r, stream, size] => {
                let (r, input) = (id(r)?, input(stream)?);
                self.wrote(room(size)?, |server, buffer| {
                    server.end_input(r, input, buffer)
                })
            }
            ["abort", r, size] => {
                let r = id(r)?;
                self.wrote(room(size)?, |server, buffer| {
                    server.abort_request(r, buffer)
                })
            }
            ["ask", list, size] => {
                let list = bytes(list)?;
                self.wrote(room(size)?, |server, buffer| {
                    server.ask_values(&list, buffer)
                })
            }
            ["opened"] => match self.held(|server| server.open_count()) {
                Ok(n) => format!("opened {n}"),
                Err(text) => text,
            },
            ["step", piece] => self.step(&bytes(piece)?),
            ["feed", n, all] => self.feed(piece_size(n)?, &bytes(all)?),
            ["values"] => format!("values {}", hex(without_zeros(&self.server.values))),
            ["poke", ref field @ ..] => {
                poke::poke(&mut self.server, field)?;
                "ok".into()
            }
            _ => return None,
        })
    }

    /// Makes a call. Where it is refused, the answer says whether the state or the values changed.
    fn held<T>(
        &mut self,
        call: impl FnOnce(&mut Server) -> Result<T, Refusal>,
    ) -> Result<T, String> {
        self.before.clone_from(&self.server);
        call(&mut self.server).map_err(|refusal| {
            let same = self.before == self.server;
            format!("refused {}", refusal as u8) + if same { "" } else { " changed" }
        })
    }

    /// A call that writes to a buffer of so many bytes.
    fn wrote(
        &mut self,
        size: usize,
        call: impl FnOnce(&mut Server, &mut [u8]) -> Result<usize, Refusal>,
    ) -> String {
        let mut buffer = vec![FILL; size];
        let answer = self.held(|server| call(server, &mut buffer));
        wrote_text(answer, &buffer)
    }

    fn step(&mut self, piece: &[u8]) -> String {
        match self.held(|server| server.step(piece)) {
            Err(text) => text,
            Ok(Step { used, event: None }) => format!("used {used}"),
            Ok(Step {
                used,
                event: Some(event),
            }) => {
                let text = text::event_text(&event, piece, &self.server.values);
                format!("used {used} {text}")
            }
        }
    }
}

/// What a writer answered, and whether it left the bytes behind alone.
fn wrote_text(wrote: Result<usize, String>, buffer: &[u8]) -> String {
    let (text, rest) = match wrote {
        Ok(n) => (format!("wrote {n} {}", hex(&buffer[..n])), &buffer[n..]),
        Err(text) => (text, buffer),
    };
    if rest.iter().any(|&byte| byte != FILL) {
        text + " touched"
    } else {
        text
    }
}

fn without_zeros(bytes: &[u8]) -> &[u8] {
    let end = bytes.iter().rposition(|&byte| byte != 0);
    &bytes[..end.map_or(0, |last| last + 1)]
}

fn keep(word: &str) -> Option<bool> {
    match word {
        "keep" => Some(true),
        "drop" => Some(false),
        _ => None,
    }
}

fn input(word: &str) -> Option<Input> {
    match word {
        "params" => Some(Input::Params),
        _ => content_input(word),
    }
}

/// A stream that bytes are written to.
fn content_input(word: &str) -> Option<Input> {
    match word {
        "stdin" => Some(Input::Stdin),
        "data" => Some(Input::Data),
        _ => None,
    }
}

/// The size of the pieces of a `feed`.
fn piece_size(word: &str) -> Option<usize> {
    number(word, 65_536).map(|n| n as usize).filter(|&n| n > 0)
}

#[cfg(test)]
mod tests {
    use super::*;

    #[test]
    fn a_refused_call_that_changed_something() {
        let changes: [fn(&mut Server); 4] = [
            |server| server.slots[15].err_ended = true,
            |server| server.values[511] = 1,
            |server| server.body[7] = 1,
            |server| server.gathered = u64::MAX,
        ];
        for change in changes {
            let mut bench = Bench::default();
            let refused = |bench: &mut Bench| {
                bench.held(|server| {
                    change(server);
                    Err::<(), _>(Refusal::NoRoom)
                })
            };
            assert_eq!(refused(&mut bench), Err("refused 6 changed".into()));
            // The same once more changes nothing.
            assert_eq!(refused(&mut bench), Err("refused 6".into()));
        }
    }

    #[test]
    fn bytes_that_were_touched() {
        assert_eq!(wrote_text(Ok(1), &[1, FILL]), "wrote 1 01");
        assert_eq!(wrote_text(Ok(1), &[1, 2]), "wrote 1 01 touched");
        let refused = Err("refused 6 changed".into());
        assert_eq!(wrote_text(refused, &[FILL, 0]), "refused 6 changed touched");
    }
}
