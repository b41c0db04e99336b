//! Two shuffles of one set of requests, run on a console and compared request by request.
//!
//! Each request has records and calls of its own, in an order of its own, and a call may stand inside a record of its
//! request. The two runs shuffle them differently among the requests and cut the bytes differently. Then every request
//! has to have the same events and answers in both, and the same has to be left of it.
//!
//! A console is held to itself and not to the twin. The twin takes part in making the scripts: each request is made on
//! one that has no other request, and in each run it says how many bytes a piece uses, so that the rest is fed again.

mod run;
mod tail;
mod tally;
mod told;

pub use run::{events, used, Run, Whose};
pub use tally::Tally;
pub use told::Told;

use crate::drive::shortened;
use crate::random::Random;
use crate::rounds;
use crate::scripts::own::{own, Item, Own};
use crate::scripts::Script;
use crate::state::SLOTS;
use std::collections::BTreeSet;
use std::fmt;

/// A set of requests, and two runs with the same records and calls for each of them.
pub struct Round {
    pub seed: u64,
    pub requests: Vec<Own>,
    pub runs: [Run; 2],
}

pub fn round(seed: u64) -> Round {
    let mut random = Random::new(seed);
    let requests: Vec<Own> = ids(&mut random)
        .into_iter()
        .map(|id| own(random.draw(), id))
        .collect();
    let tail = tail::tail(&mut random, &requests);
    let runs = [(); 2].map(|()| run::shuffled(&mut random, &requests, &tail));
    Round {
        seed,
        requests,
        runs,
    }
}

/// As many ids as there are slots at most, so that no opening is refused for room. Some differ in one of their two
/// bytes only.
fn ids(random: &mut Random) -> Vec<u16> {
    let number = match random.below(3) {
        0 => SLOTS,
        _ => random.within(2, SLOTS),
    };
    let mut ids = BTreeSet::new();
    while ids.len() < number {
        ids.insert(match random.below(4) {
            0 => random.within(1, 65_535) as u16,
            1 => random.pick(&[255, 256, 257, 258, 513, 32_768, 65_535]),
            _ => random.within(1, 16) as u16,
        });
    }
    ids.into_iter().collect()
}

impl Round {
    /// What a console answered in the two runs, sorted by request, where every request came out alike.
    pub fn compared(&self, answers: [&[Vec<u8>]; 2]) -> Result<[Told; 2], Box<Difference>> {
        let told = [0, 1].map(|i| Told::new(&self.runs[i], answers[i]));
        let all: BTreeSet<u16> = told
            .iter()
            .flat_map(|told| told.of.keys().copied())
            .collect();
        let ids: Vec<u16> = all
            .into_iter()
            .filter(|id| told[0].of.get(id) != told[1].of.get(id))
            .collect();
        if ids.is_empty() && told.iter().all(|told| told.astray.is_empty()) {
            return Ok(told);
        }
        Err(Box::new(Difference {
            seed: self.seed,
            ids,
            told,
        }))
    }

    /// How many calls the requests have, those inside records among them.
    pub fn calls(&self) -> usize {
        let items = self.requests.iter().flat_map(|request| &request.items);
        items
            .map(|item| match item {
                Item::Call(_) => 1,
                Item::Record { calls, .. } => calls.len(),
            })
            .sum()
    }
}

impl rounds::Round for Round {
    type Tally = Tally;
    const RUN: &'static str = "shuffle";
    const RUNS: [&'static str; 2] = ["one", "other"];

    fn new(seed: u64) -> Self {
        round(seed)
    }

    fn seed(&self) -> u64 {
        self.seed
    }

    fn scripts(&self) -> [&Script; 2] {
        [&self.runs[0].script, &self.runs[1].script]
    }

    fn size(&self) -> (usize, usize) {
        (self.requests.len(), self.calls())
    }

    fn compare(&self, answers: [&[Vec<u8>]; 2], tally: &mut Tally) -> Result<(), String> {
        let [told, _] = self.compared(answers).map_err(|found| found.to_string())?;
        tally.count(self, &told);
        Ok(())
    }

    fn missing(tally: &Tally) -> Vec<&'static str> {
        tally.missing()
    }
}

/// Requests that came out otherwise, or lines that no such run may have.
pub struct Difference {
    pub seed: u64,
    pub ids: Vec<u16>,
    pub told: [Told; 2],
}

const NAMES: [&str; 2] = ["in one shuffle", "in the other"];
/// Lines that no run may have are mostly followed by others; so many are shown.
const SHOWN: usize = 5;

impl fmt::Display for Difference {
    fn fmt(&self, out: &mut fmt::Formatter) -> fmt::Result {
        for (told, name) in self.told.iter().zip(NAMES) {
            for line in told.astray.iter().take(SHOWN) {
                writeln!(out, "seed {}, {name}, {line}", self.seed)?;
            }
        }
        // What is left of all together says less than what a request came to.
        let request = self.ids.iter().find(|&&id| id > 0);
        let Some(id) = request.or(self.ids.first()) else {
            return Ok(());
        };
        match id {
            0 => write!(out, "seed {}: what is left differs", self.seed)?,
            _ => write!(out, "seed {}: request {id} came out otherwise", self.seed)?,
        }
        match self.ids.len() - 1 {
            0 => writeln!(out)?,
            others => writeln!(out, ", and {others} more")?,
        }
        let sequences = [0, 1].map(|i| self.told[i].of.get(id).map_or(&[][..], Vec::as_slice));
        for (i, name) in NAMES.iter().enumerate() {
            writeln!(out, "  {name}:")?;
            for (at, entry) in sequences[i].iter().enumerate() {
                let same = sequences[1 - i].get(at) == Some(entry);
                let mark = if same { " " } else { "*" };
                writeln!(out, "  {mark} {}", shortened(entry.as_bytes()))?;
            }
        }
        Ok(())
    }
}
