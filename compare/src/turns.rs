//! Two runs that are the same to one request, each with its own turns of the pump, run on a console and compared.
//!
//! In the first the request is among others; in the second all that is not its own is struck out. The request has to have
//! the same events in both and the same answers, save for those of calls that come while it is leaving in either; and
//! what was written of it has to be the same, byte by byte with its streams and their ends, however it is divided into
//! records. In each run by itself nothing that it said may be lost, and nobody may wait for long.
//!
//! A console is held to itself and not to the twin, which takes part in making the scripts.

mod tally;
mod told;
mod written;

pub use tally::Tally;
pub use told::Told;
pub use written::Part;

use crate::drive::shortened;
use crate::rounds;
use crate::scripts::turns::{pair, Line, Own, Pair};
use crate::scripts::Script;
use std::collections::BTreeSet;
use std::fmt;

pub struct Round {
    pub seed: u64,
    pub pair: Pair,
    /// The calls that come while the request is leaving, in either run.
    pub leaving: BTreeSet<usize>,
}

pub fn round(seed: u64) -> Round {
    let pair = pair(seed);
    let calls = pair.runs.iter().flat_map(|run| &run.lines);
    let leaving = calls
        .filter_map(|line| match line {
            Line::Call {
                number,
                leaving: true,
            } => Some(*number),
            _ => None,
        })
        .collect();
    Round {
        seed,
        pair,
        leaving,
    }
}

impl Round {
    /// What a console told in the two runs, where both are as they have to be.
    pub fn compared(&self, answers: [&[Vec<u8>]; 2]) -> Result<[Told; 2], Box<Difference>> {
        let told = [0, 1].map(|i| Told::new(self, i, answers[i]));
        let [one, other] = &told;
        let alike = one.entries == other.entries && one.written == other.written;
        if alike && told.iter().all(|told| told.astray.is_empty()) {
            return Ok(told);
        }
        Err(Box::new(Difference {
            seed: self.seed,
            id: self.pair.id,
            told,
        }))
    }
}

impl rounds::Round for Round {
    type Tally = Tally;
    const RUN: &'static str = "run";
    const RUNS: [&'static str; 2] = ["first", "second"];

    fn new(seed: u64) -> Self {
        round(seed)
    }

    fn seed(&self) -> u64 {
        self.seed
    }

    fn scripts(&self) -> [&Script; 2] {
        [&self.pair.runs[0].script, &self.pair.runs[1].script]
    }

    fn size(&self) -> (usize, usize) {
        let calls = self.pair.own.iter();
        (1, calls.filter(|own| matches!(own, Own::Call(_))).count())
    }

    fn compare(&self, answers: [&[Vec<u8>]; 2], tally: &mut Tally) -> Result<(), String> {
        let told = self.compared(answers).map_err(|found| found.to_string())?;
        tally.count(self, &told);
        Ok(())
    }

    fn missing(tally: &Tally) -> Vec<&'static str> {
        tally.missing()
    }
}

/// A request that came out otherwise, or lines that no such run may have.
pub struct Difference {
    pub seed: u64,
    pub id: u16,
    pub told: [Told; 2],
}

const NAMES: [&str; 2] = ["among others", "alone"];
/// Lines that no run may have are mostly followed by others; so many are shown.
const SHOWN: usize = 5;

impl fmt::Display for Difference {
    fn fmt(&self, out: &mut fmt::Formatter) -> fmt::Result {
        for (told, name) in self.told.iter().zip(NAMES) {
            for line in told.astray.iter().take(SHOWN) {
                writeln!(out, "seed {}, {name}, {line}", self.seed)?;
            }
        }
        let [one, other] = &self.told;
        if one.entries != other.entries {
            let what = format!("seed {}: request {} came out otherwise", self.seed, self.id);
            show(out, &what, [&one.entries, &other.entries])?;
        }
        if one.written != other.written {
            let what = format!("seed {}: other bytes of request {}", self.seed, self.id);
            let texts = [0, 1].map(|i| written::texts(&self.told[i].written));
            show(out, &what, [&texts[0], &texts[1]])?;
        }
        Ok(())
    }
}

fn show(out: &mut fmt::Formatter, what: &str, sequences: [&[String]; 2]) -> fmt::Result {
    writeln!(out, "{what}")?;
    for (i, name) in NAMES.iter().enumerate() {
        writeln!(out, "  {name}:")?;
        for (at, entry) in sequences[i].iter().enumerate() {
            let same = sequences[1 - i].get(at) == Some(entry);
            let mark = if same { " " } else { "*" };
            writeln!(out, "  {mark} {}", shortened(entry.as_bytes()))?;
        }
    }
    Ok(())
}
