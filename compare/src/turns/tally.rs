//! How often each thing came that turns of the pump could go wrong with, so that one can see that all of them did.

use super::{Part, Round, Told};
use crate::answer::Output;
use crate::scripts::turns::{Line, Own};
use std::collections::BTreeMap;
use std::fmt;

#[derive(Default)]
pub struct Tally(BTreeMap<&'static str, usize>);

const WANTED: [&str; 17] = [
    "byte of STDERR",
    "byte of STDOUT",
    "call behind bytes of its own",
    "call while leaving",
    "call while leaving in one run only",
    "END",
    "end of STDERR",
    "end of STDOUT",
    "other records of the pump than in the other run",
    "queue end: waits",
    "queue finish: waits",
    "queue say: waits",
    "refused 10 of another request",
    "say: wrote",
    "finish: wrote",
    "turn among others",
    "turn alone",
];

impl Tally {
    /// A round, and what a console told in it.
    pub fn count(&mut self, round: &Round, told: &[Told; 2]) {
        for part in &told[0].written {
            self.add(match part {
                Part::Byte(Output::Stdout, _) => "byte of STDOUT",
                Part::Byte(Output::Stderr, _) => "byte of STDERR",
                Part::End(Output::Stdout) => "end of STDOUT",
                Part::End(Output::Stderr) => "end of STDERR",
                Part::Finished(_) => "END",
            });
        }
        if told[0].pumped != told[1].pumped {
            self.add("other records of the pump than in the other run");
        }
        for pair in round.pair.own.windows(2) {
            if let [Own::Bytes(_), Own::Call(_)] = pair {
                self.add("call behind bytes of its own");
            }
        }
        self.count_lines(round);
        self.count_leaving(round);
        for entry in &told[0].entries {
            for (start, end, kind) in ANSWERS {
                if entry.starts_with(start) && entry.contains(end) {
                    self.add(kind);
                }
            }
        }
    }

    fn count_lines(&mut self, round: &Round) {
        for (run, name) in round
            .pair
            .runs
            .iter()
            .zip(["turn among others", "turn alone"])
        {
            for (line, answer) in run.lines.iter().zip(&run.script.answers) {
                match line {
                    Line::Turn => self.add(name),
                    Line::Other if answer == "refused 10" => {
                        self.add("refused 10 of another request");
                    }
                    _ => {}
                }
            }
        }
    }

    fn count_leaving(&mut self, round: &Round) {
        let leaving = round.pair.runs.iter().map(|run| {
            let leaving = |line: &&Line| matches!(line, Line::Call { leaving: true, .. });
            run.lines.iter().filter(leaving).count()
        });
        let in_runs: usize = leaving.sum();
        for _ in &round.leaving {
            self.add("call while leaving");
        }
        if in_runs < 2 * round.leaving.len() {
            self.add("call while leaving in one run only");
        }
    }

    fn add(&mut self, kind: &'static str) {
        *self.0.entry(kind).or_default() += 1;
    }

    /// What did not come.
    pub fn missing(&self) -> Vec<&'static str> {
        let mut wanted = WANTED.to_vec();
        wanted.retain(|kind| !self.0.contains_key(kind));
        wanted
    }
}

/// How an entry begins, what it has in it, and what it counts for.
const ANSWERS: [(&str, &str, &str); 5] = [
    ("> queue say ", ": waits", "queue say: waits"),
    ("> queue end ", ": waits", "queue end: waits"),
    ("> queue finish ", ": waits", "queue finish: waits"),
    ("> say ", ": wrote", "say: wrote"),
    ("> finish ", ": wrote", "finish: wrote"),
];

impl fmt::Display for Tally {
    fn fmt(&self, out: &mut fmt::Formatter) -> fmt::Result {
        for (kind, n) in &self.0 {
            writeln!(out, "{n:>9}  {kind}")?;
        }
        Ok(())
    }
}
