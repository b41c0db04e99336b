//! How often each thing came that a shuffle could go wrong with, so that one can see that all of them did.

use super::{Round, Told};
use crate::scripts::own::Item;
use crate::state::SLOTS;
use std::collections::BTreeMap;
use std::fmt;

#[derive(Default)]
pub struct Tally(BTreeMap<String, usize>);

const INSIDE: &str = "call inside a record of its own request";
const FINISHED_INSIDE: &str = "finish inside a record of its own request";
const INSIDE_OTHERS: &str = "call inside a record of another request";
const LENT_MORE: &str = "call behind a piece that was not all used";
const AGAIN: &str = "opening of an id that was finished";
const TAKEN_AGAIN: &str = "opening in a slot that another request had";
const MOVED: &str = "opening in another slot than in the other run";
const FULL: &str = "round with a request for each slot";
const ACTIVE: &str = "request that stays active";

/// What a complete comparison has to meet, beside those above.
const WANTED: [&str; 30] = [
    "abort",
    "data",
    "end data exact",
    "end data over",
    "end data short",
    "end data unstated",
    "end stdin exact",
    "end stdin over",
    "end stdin short",
    "end stdin unstated",
    "end: refused 5",
    "end: wrote",
    "fault 21",
    "fault 22",
    "fault 23",
    "fault 24",
    "fault 25",
    "fault 26",
    "finish: closed",
    "finish: open",
    "finish: refused 3",
    "finish: refused 6",
    "open",
    "owed: wrote",
    "pair: pair",
    "ready",
    "refuse 3",
    "say: wrote",
    "value: store",
    "walk: walk",
];

impl Tally {
    /// A round, and what a console told in the first of its runs.
    pub fn count(&mut self, round: &Round, told: &Told) {
        for own in &round.requests {
            let inside = own.items.iter().map(|item| match item {
                Item::Call(_) => 0,
                Item::Record { calls, .. } => calls.len(),
            });
            self.add(INSIDE, inside.sum());
            self.add(FINISHED_INSIDE, own.finished_inside);
            self.add(ACTIVE, own.keep.is_some().into());
            let [one, other] = [0, 1].map(|i| round.runs[i].slots.get(&own.id));
            let openings = one.into_iter().flatten().zip(other.into_iter().flatten());
            self.add(MOVED, openings.filter(|(one, other)| one != other).count());
            self.add(AGAIN, one.map_or(0, Vec::len).saturating_sub(1));
        }
        for run in &round.runs {
            self.add(TAKEN_AGAIN, run.taken_again);
            self.add(INSIDE_OTHERS, run.inside_others);
            self.add(LENT_MORE, run.lent_more);
        }
        self.add(FULL, (round.requests.len() == SLOTS).into());
        for entry in told.of.values().flatten() {
            self.add(&kind(entry), 1);
        }
    }

    fn add(&mut self, kind: &str, n: usize) {
        if n > 0 {
            *self.0.entry(kind.into()).or_default() += n;
        }
    }

    /// What did not come.
    pub fn missing(&self) -> Vec<&'static str> {
        let others = [
            INSIDE,
            FINISHED_INSIDE,
            INSIDE_OTHERS,
            LENT_MORE,
            AGAIN,
            TAKEN_AGAIN,
            MOVED,
            FULL,
            ACTIVE,
        ];
        let mut wanted = [&others[..], &WANTED].concat();
        wanted.retain(|kind| !self.0.contains_key(*kind));
        wanted
    }
}

/// An event without its request, or a call and how it was answered.
fn kind(entry: &str) -> String {
    if let Some((line, answer)) = entry
        .strip_prefix("> ")
        .and_then(|call| call.split_once(": "))
    {
        let call = line.split(' ').next().unwrap_or_default();
        let words: Vec<&str> = answer.split(' ').collect();
        return match words[..] {
            ["refused", n, ..] => format!("{call}: refused {n}"),
            ["wrote", _, _, end] => format!("{call}: {end}"),
            [first, ..] => format!("{call}: {first}"),
            [] => call.into(),
        };
    }
    let words: Vec<&str> = entry.split(' ').collect();
    match words[..] {
        ["end", _, stream, word] => format!("end {stream} {word}"),
        [event @ ("refuse" | "fault"), _, n, ..] => format!("{event} {n}"),
        [first, ..] => first.into(),
        [] => String::new(),
    }
}

impl fmt::Display for Tally {
    fn fmt(&self, out: &mut fmt::Formatter) -> fmt::Result {
        for (kind, n) in &self.0 {
            writeln!(out, "{n:>9}  {kind}")?;
        }
        Ok(())
    }
}
