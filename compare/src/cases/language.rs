//! What the lines of a case file can say: for the console, or for the bench.

use super::records::{reply_record, request_record};
use crate::queue::QUEUE;
use crate::state::STORE;

pub struct Language {
    /// What the commands begin with.
    pub(super) commands: &'static [&'static str],
    pub(super) events: &'static [&'static str],
    /// The bytes of a line that stands for a record, or none where it does not.
    pub(super) record: fn(&[&str]) -> Result<Option<Vec<u8>>, String>,
    /// Whether there are a store and a queue to be lent, and bodies of readings.
    pub(super) station: bool,
}

pub static CONSOLE: Language = Language {
    commands: &[
        "start", "lend", "step", "next", "feed", "value", "pair", "walk", "say", "end", "owed",
        "put", "finish", "queue", "pump", "active", "area", "counts", "waits", "numbers", "store",
        "reading", "body", "correct", "poke",
    ],
    events: &[
        "open", "ready", "data", "end", "abort", "refuse", "fault", "query", "unknown", "closed",
    ],
    record: request_record,
    station: true,
};

pub static BENCH: Language = Language {
    commands: &[
        "start", "open", "pair", "write", "end", "abort", "ask", "opened", "step", "feed",
        "values", "wait", "hang", "poke",
    ],
    events: &["output", "ended", "finished", "values", "unknown", "closed"],
    record: reply_record,
    station: false,
};

impl Language {
    /// The lines before every case, and their answers.
    pub(super) fn before(&self) -> Vec<(String, &'static str)> {
        let mut before = Vec::new();
        if self.station {
            before.push((format!("lend {STORE}"), "ok"));
            before.push((format!("lend queue {QUEUE}"), "ok"));
        }
        before.push(("start".into(), "open"));
        before
    }
}
