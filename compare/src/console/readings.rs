//! The commands of readings: one is written, or a body of them is read piece by piece.

use super::words::{bytes, number, room, signed};
use super::{wrote_text, Console, FILL};
use crate::readings::{write, Reader, Reading, ReadingFault, ReadingResult};
use std::fmt::Write;

impl Console {
    /// None for words that are no command of these.
    pub(super) fn reading_command(&mut self, words: &[&str]) -> Option<String> {
        Some(match *words {
            ["reading", log, tenths, raw, size] => {
                let reading = Reading {
                    log: number(log, u32::MAX.into())? as u32,
                    tenths: signed(tenths)?,
                    raw: number(raw, u32::MAX.into())? as u32,
                };
                let mut buffer = vec![FILL; room(size)?];
                let wrote = write(reading, &mut buffer).map_err(|n| format!("refused {n}"));
                wrote_text(wrote, &buffer, "")
            }
            ["read", all] => self.read(&bytes(all)?),
            ["body", "end"] => match self.reader.end() {
                Ok(()) => "clean".into(),
                Err(fault) => refused(fault),
            },
            ["body", "new"] => {
                self.reader = Reader::new();
                "ok".into()
            }
            _ => return None,
        })
    }

    /// Calls the reader until the bytes are used up or the body is refused; once where there are none.
    fn read(&mut self, all: &[u8]) -> String {
        let (mut used, mut text) = (0, String::new());
        loop {
            let (n, told) = self.reader.read(&all[used..]);
            used += n;
            match told {
                ReadingResult::Nothing => {}
                ReadingResult::Reading(Reading { log, tenths, raw }) => {
                    write!(text, "reading {log} {tenths} {raw}; ").expect("a string takes all");
                }
                ReadingResult::Refused(fault) => {
                    return format!("{text}{} at {used}", refused(fault));
                }
            }
            if used == all.len() {
                return format!("{text}used {used}");
            }
        }
    }
}

fn refused(fault: ReadingFault) -> String {
    format!("refused {}", fault as u8)
}
