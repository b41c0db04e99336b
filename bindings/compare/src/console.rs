//! The console of `docs/CONSOLE.md`, as far as the safe interface reaches.

use crate::events::{in_plain, without_bytes};
use compare::console::correction::asked;
use compare::console::text::event_text;
use compare::console::words::{bytes, hex, id, number, room, signed, without_return};
use compare::console::LONGEST_LINE;
use compare::correction::Curve;
use std::fmt::Write;
use yotnaghez::{Card, Event, Output, Pair, Reader, Reading, Receiver, Refusal, Step};

/// What a lent buffer is filled with before the call.
const FILL: u8 = 0xee;

pub struct Console {
    receiver: Receiver,
    /// The event that `owed` replies to. Data owes nothing, so its bytes are not kept.
    event: Option<Event<'static>>,
    reader: Reader,
}

impl Console {
    pub fn new() -> Self {
        Console {
            receiver: Receiver::new(),
            event: None,
            reader: Reader::new(),
        }
    }

    /// The answer to a line, both without their newline.
    pub fn answer(&mut self, line: &[u8]) -> String {
        let line = without_return(line);
        if line.len() > LONGEST_LINE {
            return "long".into();
        }
        std::str::from_utf8(line)
            .ok()
            .and_then(|text| self.command(&text.split(' ').collect::<Vec<_>>()))
            .unwrap_or_else(|| "what".into())
    }

    /// None for words that are no command.
    fn command(&mut self, words: &[&str]) -> Option<String> {
        Some(match *words {
            ["start"] => {
                self.receiver.restart();
                self.event = None;
                "open".into()
            }
            ["step", piece] => self.told(&bytes(piece)?, Receiver::step),
            ["next", piece] => self.told(&bytes(piece)?, Receiver::next_event),
            ["feed", size, all] => self.feed(
                number(size, 65_536).filter(|&n| n > 0)? as usize,
                &bytes(all)?,
            ),
            ["active"] => self
                .receiver
                .active_count()
                .map_or_else(refused, |n| format!("active {n}")),
            ["counts", r] => match self.receiver.request(id(r)?) {
                Ok(r) => format!("counts {} {}", r.stdin_shown, r.data_shown),
                Err(_) => "none".into(),
            },
            ["value", r, name, fallback] => self.value(id(r)?, &bytes(name)?, &bytes(fallback)?),
            ["pair", r, k] => self.pair(id(r)?, number(k, u64::MAX)? as usize),
            ["walk", r] => self.walk(id(r)?),
            ["list", r] => match self.receiver.list(id(r)?) {
                Ok(list) => format!("list {}", hex(list)),
                Err(refusal) => refused(refusal),
            },
            ["request", r] => self.request(id(r)?),
            ["owed", size] => {
                let event = self.event;
                written(room(size)?, |out| {
                    event.map_or(Ok(0), |event| yotnaghez::owed_reply(&event, out))
                })
            }
            ["put", name, value, size] => {
                let (name, value) = (bytes(name)?, bytes(value)?);
                written(room(size)?, |out| yotnaghez::write_pair(out, &name, &value))
            }
            _ => {
                return self
                    .output_command(words)
                    .or_else(|| self.body_command(words))
            }
        })
    }

    fn output_command(&mut self, words: &[&str]) -> Option<String> {
        let receiver = &mut self.receiver;
        Some(match *words {
            ["say", r, stream, data, size] => {
                let (r, output, data) = (id(r)?, output(stream)?, bytes(data)?);
                written(room(size)?, |out| {
                    receiver.write_output(r, output, &data, out)
                })
            }
            ["end", r, stream, size] => {
                let (r, output) = (id(r)?, output(stream)?);
                written(room(size)?, |out| receiver.end_output(r, output, out))
            }
            ["finish", r, status, size] => {
                let (r, status) = (id(r)?, number(status, u32::MAX.into())? as u32);
                let mut closed = false;
                let text = written(room(size)?, |out| {
                    let finished = receiver.finish(r, status, out)?;
                    closed = finished.closed;
                    Ok(finished.written)
                });
                ended(text, closed)
            }
            ["pump", allowance, size] => {
                let allowance = number(allowance, u64::MAX)? as usize;
                let (mut closed, mut records) = (false, 0);
                let text = written(room(size)?, |out| {
                    let pumped = receiver.pump(allowance, out)?;
                    (closed, records) = (pumped.closed, pumped.records);
                    Ok(pumped.written)
                });
                ended(
                    text.replacen("wrote", &format!("pumped {records}"), 1),
                    closed,
                )
            }
            ["queue", "say", r, stream, data] => {
                queued(receiver.queue_output(id(r)?, output(stream)?, &bytes(data)?))
            }
            ["queue", "end", r, stream] => queued(receiver.queue_end(id(r)?, output(stream)?)),
            ["queue", "finish", r, status] => {
                queued(receiver.queue_finish(id(r)?, number(status, u32::MAX.into())? as u32))
            }
            _ => return None,
        })
    }

    fn body_command(&mut self, words: &[&str]) -> Option<String> {
        Some(match *words {
            ["reading", log, tenths, raw, size] => {
                let reading = Reading {
                    log: number(log, u32::MAX.into())? as u32,
                    tenths: signed(tenths)?,
                    raw: number(raw, u32::MAX.into())? as u32,
                };
                let mut out = vec![FILL; room(size)?];
                let wrote = yotnaghez::write_reading(&mut out, reading);
                wrote_text(
                    wrote.map_err(|why| format!("refused {}", why.number())),
                    &out,
                )
            }
            ["read", all] => self.read(&bytes(all)?),
            ["body", "end"] => match self.reader.end() {
                Ok(()) => "clean".into(),
                Err(fault) => format!("refused {}", fault.number()),
            },
            ["body", "new"] => {
                self.reader = Reader::new();
                "ok".into()
            }
            ["correct", ..] => {
                let (calibration, tenths, raw) = asked(words)?;
                let [thawed, frozen] =
                    [calibration.thawed, calibration.frozen].map(|card| match card.curve {
                        Curve::Thawed { offset } => Card::Thawed { serial: 0, offset },
                        Curve::Frozen { slope, offset } => Card::Frozen {
                            serial: 0,
                            slope,
                            offset,
                        },
                    });
                match yotnaghez::correct(thawed, frozen, tenths, raw) {
                    Ok(count) => format!("count {}", hex(&count.to_be_bytes())),
                    Err(fault) => format!("refused {}", fault.number()),
                }
            }
            _ => return None,
        })
    }

    fn told<'p>(
        &mut self,
        piece: &'p [u8],
        call: impl FnOnce(&mut Receiver, &'p [u8]) -> Result<Step<'p>, Refusal>,
    ) -> String {
        let step = match call(&mut self.receiver, piece) {
            Ok(step) => step,
            Err(refusal) => return refused(refusal),
        };
        self.event = step.event.map(without_bytes);
        match step.event {
            None => format!("used {}", step.used),
            Some(event) => format!(
                "used {} {}",
                step.used,
                event_text(&in_plain(event), &piece[..step.used])
            ),
        }
    }

    /// Data of one stream that follows each other is told as one.
    fn feed(&mut self, size: usize, all: &[u8]) -> String {
        let (mut used, mut last, mut texts): (usize, Option<Event>, Vec<String>) =
            (0, None, Vec::new());
        while used < all.len() {
            let piece = &all[used..all.len().min((used / size + 1) * size)];
            let step = match self.receiver.next_event(piece) {
                Ok(step) => step,
                Err(refusal) => {
                    if used > 0 {
                        self.event = last.map(without_bytes);
                    }
                    texts.push(refused(refusal));
                    return texts.join("; ");
                }
            };
            used += step.used;
            match (last, step.event) {
                (
                    Some(Event::Data {
                        id: a, stream: b, ..
                    }),
                    Some(Event::Data { id, stream, bytes }),
                ) if (a, b) == (id, stream) => {
                    texts
                        .last_mut()
                        .expect("data was told")
                        .push_str(&hex(bytes));
                }
                (_, Some(event)) => texts.push(event_text(&in_plain(event), &piece[..step.used])),
                (_, None) => {}
            }
            last = step.event.or(last);
            if step.used == 0 || matches!(step.event, Some(Event::Closed { .. })) {
                break;
            }
        }
        self.event = last.map(without_bytes);
        texts.push(format!("used {used}"));
        texts.join("; ")
    }

    fn value(&self, id: u16, name: &[u8], fallback: &[u8]) -> String {
        match self.receiver.value(id, name) {
            Ok(Some(value)) => format!("store {}", hex(value)),
            Ok(None) => format!("fallback {}", hex(fallback)),
            Err(refusal) => format!("{} {}", refused(refusal), hex(fallback)),
        }
    }

    fn pair(&self, id: u16, k: usize) -> String {
        match self.receiver.pair_at(id, k) {
            Ok(pair) => format!(
                "pair {}",
                places(self.receiver.list(id).expect("it has a pair"), pair, " ")
            ),
            Err(refusal) => refused(refusal),
        }
    }

    fn walk(&self, id: u16) -> String {
        let (list, pairs) = match (self.receiver.list(id), self.receiver.pairs(id)) {
            (Ok(list), Ok(pairs)) => (list, pairs),
            (Err(refusal), Err(_)) => return refused(refusal),
            _ => return "a list for one of two".into(),
        };
        let mut text = format!("walk {}", list.len());
        for pair in pairs {
            write!(text, " {}", places(list, pair, ",")).expect("a string takes all");
        }
        // No call leaves a request whose list is malformed.
        format!("{text} end {}", list.len())
    }

    fn request(&self, id: u16) -> String {
        let r = match self.receiver.request(id) {
            Ok(request) => request,
            Err(refusal) => return refused(refusal),
        };
        let outputs = [
            ("out_ended", r.out_ended),
            ("err_used", r.err_used),
            ("err_ended", r.err_ended),
        ];
        let outputs = outputs.map(|(name, flag)| format!("{name} {}", u8::from(flag)));
        let turn = r.turn.to_string().to_lowercase();
        format!(
            "request id {} length {} role {} keep {} turn {turn} life {} {} stdin_shown {} data_shown {}",
            r.id,
            r.length,
            r.role,
            u8::from(r.keep),
            r.life,
            outputs.join(" "),
            r.stdin_shown,
            r.data_shown
        )
    }

    fn read(&mut self, all: &[u8]) -> String {
        let (mut rest, mut text) = (all, String::new());
        loop {
            match self.reader.read(&mut rest) {
                Ok(None) => {}
                Ok(Some(Reading { log, tenths, raw })) => {
                    write!(text, "reading {log} {tenths} {raw}; ").expect("a string takes all");
                }
                Err(fault) => {
                    return format!(
                        "{text}refused {} at {}",
                        fault.number(),
                        all.len() - rest.len()
                    )
                }
            }
            if rest.is_empty() {
                return format!("{text}used {}", all.len());
            }
        }
    }
}

fn refused(refusal: Refusal) -> String {
    format!("refused {}", refusal.number())
}

fn queued(answer: Result<(), Refusal>) -> String {
    answer.map_or_else(refused, |()| "waits".into())
}

fn output(word: &str) -> Option<Output> {
    match word {
        "stdout" => Some(Output::Stdout),
        "stderr" => Some(Output::Stderr),
        _ => None,
    }
}

/// Places and lengths of a pair, counted in its list.
fn places(list: &[u8], pair: Pair, between: &str) -> String {
    let place = |part: &[u8]| part.as_ptr() as usize - list.as_ptr() as usize;
    [
        place(pair.name),
        pair.name.len(),
        place(pair.value),
        pair.value.len(),
    ]
    .map(|n| n.to_string())
    .join(between)
}

/// Lends a buffer to a writer, and says what it wrote.
fn written(room: usize, write: impl FnOnce(&mut [u8]) -> Result<usize, Refusal>) -> String {
    let mut out = vec![FILL; room];
    let wrote = write(&mut out);
    wrote_text(wrote.map_err(refused), &out)
}

fn wrote_text(wrote: Result<usize, String>, out: &[u8]) -> String {
    let (text, rest) = match wrote {
        Ok(n) => (format!("wrote {n} {}", hex(&out[..n])), &out[n..]),
        Err(text) => (text, out),
    };
    match rest.iter().all(|&byte| byte == FILL) {
        true => text,
        false => text + " touched",
    }
}

/// Whether the connection is open or closed, behind what was written.
fn ended(text: String, closed: bool) -> String {
    match text.starts_with("refused") {
        true => text,
        false => text + if closed { " closed" } else { " open" },
    }
}
