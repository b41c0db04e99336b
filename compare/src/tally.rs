//! How often each kind of answer came, so that one can see that all of them did.

pub mod bench;
pub mod console;

use crate::sides::Side;
use std::collections::BTreeMap;
use std::fmt;

pub struct Tally<'a> {
    side: &'a Side,
    counts: BTreeMap<String, usize>,
}

impl<'a> Tally<'a> {
    pub fn new(side: &'a Side) -> Self {
        Tally {
            side,
            counts: BTreeMap::new(),
        }
    }

    pub fn count(&mut self, line: &[u8], answer: &str) {
        for kind in (self.side.kinds)(line, answer) {
            *self.counts.entry(kind).or_default() += 1;
        }
    }

    /// The kinds that a complete comparison has to meet and this one did not.
    pub fn missing(&self) -> Vec<String> {
        let mut wanted = (self.side.wanted)();
        wanted.retain(|kind| !self.counts.contains_key(kind));
        wanted
    }
}

impl fmt::Display for Tally<'_> {
    fn fmt(&self, out: &mut fmt::Formatter) -> fmt::Result {
        for (kind, n) in &self.counts {
            writeln!(out, "{n:>9}  {kind}")?;
        }
        Ok(())
    }
}
