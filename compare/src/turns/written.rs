//! What was written of a request, and what it said, in the same parts: bytes of its streams, their ends, its END.

use crate::answer::Output;
use crate::console::words::{bytes, hex};
use crate::wire::{kind, record_length, Header, HEADER};

#[derive(Clone, Copy, Debug, PartialEq, Eq)]
pub enum Part {
    Byte(Output, u8),
    End(Output),
    /// END, with its application status.
    Finished(u32),
}

/// The records of written bytes: whose each is, and its parts. None where they are no whole records of output.
pub fn records(mut written: &[u8]) -> Option<Vec<(u16, Vec<Part>)>> {
    let mut records = Vec::new();
    while !written.is_empty() {
        let header = Header::read(written.first_chunk::<HEADER>()?);
        let length = record_length(header.content.into());
        let content = written.get(HEADER..HEADER + usize::from(header.content))?;
        let parts = match header.kind {
            kind::STDOUT => of_stream(Output::Stdout, content),
            kind::STDERR => of_stream(Output::Stderr, content),
            kind::END => vec![Part::Finished(u32::from_be_bytes(
                *content.first_chunk::<4>()?,
            ))],
            _ => return None,
        };
        records.push((header.id, parts));
        written = written.get(length..)?;
    }
    Some(records)
}

fn of_stream(output: Output, content: &[u8]) -> Vec<Part> {
    match content {
        [] => vec![Part::End(output)],
        _ => content.iter().map(|&b| Part::Byte(output, b)).collect(),
    }
}

/// The parts as lines, data of one stream that follows each other as one.
pub fn texts(parts: &[Part]) -> Vec<String> {
    let mut texts: Vec<String> = Vec::new();
    let mut last = None;
    for part in parts {
        match (part, last, texts.last_mut()) {
            (Part::Byte(output, byte), Some(before), Some(text)) if *output == before => {
                text.push_str(&hex(&[*byte]));
            }
            (Part::Byte(output, byte), ..) => texts.push(format!("{output:?} {}", hex(&[*byte]))),
            (part, ..) => texts.push(format!("{part:?}")),
        }
        last = match part {
            Part::Byte(output, _) => Some(*output),
            _ => None,
        };
    }
    texts
}

/// What a request said, by the answers to its calls.
#[derive(Default)]
pub struct Said {
    pub parts: Vec<Part>,
    out_ended: bool,
    err_used: bool,
    err_ended: bool,
}

impl Said {
    /// It is opened: its streams begin anew.
    pub fn opened(&mut self) {
        *self = Said {
            parts: std::mem::take(&mut self.parts),
            ..Said::default()
        };
    }

    /// A call that was not refused. Others say nothing.
    pub fn call(&mut self, line: &str) -> Option<()> {
        let line = line.strip_prefix("queue ").unwrap_or(line);
        let words: Vec<&str> = line.split(' ').collect();
        match words[..] {
            ["say", _, stream, data, ..] => {
                let output = output(stream)?;
                let data = bytes(data)?;
                self.err_used |= output == Output::Stderr && !data.is_empty();
                self.parts
                    .extend(data.iter().map(|&byte| Part::Byte(output, byte)));
            }
            ["end", _, stream, ..] => self.end(output(stream)?),
            ["finish", _, status, ..] => {
                if !self.out_ended {
                    self.end(Output::Stdout);
                }
                if self.err_used && !self.err_ended {
                    self.end(Output::Stderr);
                }
                self.parts.push(Part::Finished(status.parse().ok()?));
            }
            _ => {}
        }
        Some(())
    }

    fn end(&mut self, output: Output) {
        match output {
            Output::Stdout => self.out_ended = true,
            Output::Stderr => self.err_ended = true,
        }
        self.parts.push(Part::End(output));
    }
}

fn output(word: &str) -> Option<Output> {
    match word {
        "stdout" => Some(Output::Stdout),
        "stderr" => Some(Output::Stderr),
        _ => None,
    }
}
